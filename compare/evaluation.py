"""What a program of scalars, functions, labels and branches does, read from docs/LANGUAGE.md alone: from right to left, each
argument before its function.
"""

import sys
import threading

GREATEST = 9223372036854775807
MOST_CALLS = 4096


class Fault(Exception):
    def __init__(self, kind):
        super().__init__(kind)
        self.kind = kind


class GoesOn(Exception):
    """The program has begun as many lines as it may."""


class Call:
    """A function that is being carried out: its names with their values, and the line that it is at."""

    def __init__(self, function, left, right, caller):
        header = function.header
        self.function, self.caller, self.line = function, caller, 0
        self.depth = caller.depth + 1 if caller else 1
        self.labels = {label.value: n for n, (label, _) in enumerate(function.lines, 1) if label}
        self.values = {t.value: None for t in header.names()}
        for name, value in ((header.left, left), (header.right, right)):
            if name:
                self.values[name.value] = value

    def places(self):
        call, word = self, ""
        while call:
            yield f"{word}{call.function.header.name.value}[{call.line}]\n"
            call, word = call.caller, "FROM "


class Evaluation:
    def __init__(self, functions, most_lines):
        self.functions = {}
        for f in functions:
            self.functions.setdefault(f.header.name.value, f)
        self.lines_left, self.globals, self.out, self.call = most_lines, {}, [], None

    # values

    def read(self, name):
        call = self.call
        if name in call.labels:
            return call.labels[name]
        value = call.values[name] if name in call.values else self.globals.get(name)
        if value is None:
            raise Fault("VALUE")
        return value

    def assign(self, name, value):
        names = self.call.values if name in self.call.values else self.globals
        names[name] = value
        return value

    def called(self, node):
        """What a call gives, or None where its result has no value."""
        arguments = [self.value(child) for child in reversed(node.children)][::-1]
        if self.call.depth == MOST_CALLS:
            raise Fault("LIMIT")
        function = self.functions[node.value]
        left = arguments[0] if len(arguments) == 2 else None
        self.call = Call(function, left, arguments[-1] if arguments else None, self.call)
        self.carry_out()
        result = function.header.result
        value = self.call.values[result.value] if result else None
        self.call = self.call.caller
        return value

    def value(self, node):
        if node.kind == "numbers":
            return node.value[0]
        if node.kind == "named" and node.value not in self.functions:
            return self.read(node.value)
        if node.kind == "named":
            value = self.called(node)
            if value is None:
                raise Fault("VALUE")
            return value
        if node.kind == "assigned":
            return self.assign(node.value, self.value(node.children[0]))
        return self.applied(node)

    def applied(self, node):
        right = self.value(node.children[-1])
        left = self.value(node.children[0]) if node.kind == "dyad" else 0
        symbol = node.value[0]
        result = left + right if symbol == "+" else left - right if symbol == "-" else left * right
        if abs(result) > GREATEST:
            raise Fault("LIMIT")
        return result

    # lines

    def statement(self, branch, quiet, node):
        """The line that comes next, or None."""
        if branch is not None:
            return self.value(node)
        if not quiet:
            self.out.append(str(self.value(node)).replace("-", "¯") + "\n")
        elif node.kind == "named":
            self.called(node)
        else:
            self.value(node)
        return None

    def carry_out(self):
        call, lines = self.call, self.call.function.lines
        line = 1
        while 1 <= line <= len(lines):
            call.line, following = line, None
            _, statement = lines[line - 1]
            if statement:
                if self.lines_left == 0:
                    raise GoesOn
                self.lines_left -= 1
                following = self.statement(*statement)
            line = line + 1 if following is None else following

    def whole(self, main):
        self.call = Call(main, None, None, None)
        try:
            self.carry_out()
        except Fault as fault:
            return 1, "".join(self.out), f"{fault.kind} ERROR " + "".join(self.call.places())
        except GoesOn:
            return None, "".join(self.out), ""
        return 0, "".join(self.out), ""

    def run(self, main):
        """The status, or None where the program goes on, and what is written to standard output and to standard error."""
        done = []
        sys.setrecursionlimit(10**6)
        threading.stack_size(2**29)
        thread = threading.Thread(target=lambda: done.append(self.whole(main)))
        thread.start()
        thread.join()
        return done[0]
