"""What `aplc --run` must print for a source, read from docs/LANGUAGE.md and docs/TYPING.md alone.

It shares nothing with the crates: tokens by characters, statements by trying every form, chains of calls by sets.
"""

import evaluation
import typing_rules

GREATEST = 9223372036854775807

WORDS = {
    1: "UTF8", 2: "CHARACTER", 3: "QUOTE", 4: "NUMBER", 5: "NAME", 6: "HEADER", 7: "FORM", 8: "NESTING", 9: "NODES",
    10: "COUNT", 11: "DECLARATION", 12: "TWICE", 13: "FUNCTION", 14: "SHADOW", 15: "MAIN", 16: "ASSIGN", 17: "TYPE",
    18: "RANK", 19: "RESHAPE", 20: "TRANSPOSE", 21: "DECLARED", 22: "AXIS", 23: "TOO LONG", 90: "LATER",
}

SECOND_SPELLINGS = {"∣": "|", "∼": "~", "^": "∧", "∈": "∊"}
SYMBOLS = set("+-×⌈⌊<≤=≥>≠∧∨⍲⍱~⍴,⍳↑↓⌽⊖⍉/⌿\\⍀∊.∘←→()[];:⍞⎕∇|")
SCALAR = set("+-×⌈⌊|<≤=≥>≠∧∨⍲⍱")
MONADIC = set("+-×⌈⌊~⍴,⍳⍉|")
DYADIC = set("⍴,⍳↑↓⍉∊")
TURNS = set("⌽⊖")
STROKES = set("/⌿\\⍀")
MONADIC_BUILT = {("+", None), ("-", None)}
DYADIC_BUILT = {("+", None), ("-", None), ("×", None)}


class Refused(Exception):
    def __init__(self, place, number):
        super().__init__(place, number)
        self.place, self.number = place, number


class Token:
    def __init__(self, kind, place, value=None):
        self.kind, self.place, self.value = kind, place, value


# ---- Tokens

def is_letter(c):
    return "A" <= c <= "Z" or "a" <= c <= "z" or c in "_∆⍙"


def is_digit(c):
    return "0" <= c <= "9"


class Characters:
    """The characters of the front that is UTF-8, with their places, and the place where that front ends."""

    def __init__(self, source):
        self.source = source
        try:
            text, self.bad = source.decode(), None
        except UnicodeDecodeError as error:
            text, self.bad = source[: error.start].decode(), error.start
        self.text, self.places, place = text, [], 0
        for c in text:
            self.places.append(place)
            place += len(c.encode())

    def run(self, i, test):
        while i < len(self.text) and test(self.text[i]):
            i += 1
        return i


def read_text(characters, i):
    """Where the text ends, and how many characters it has."""
    text, j, count = characters.text, i + 1, 0
    while j < len(text) and text[j] != "\n":
        if text[j] == "'" and text[j + 1 : j + 2] != "'":
            return j + 1, count
        j += 1 if text[j] != "'" else 2
        count += 1
    bad = characters.bad
    if bad is not None and j == len(text) and b"'" in characters.source[bad:].split(b"\n")[0]:
        raise Refused(bad, 1)
    raise Refused(characters.places[i], 3)


def read_number(characters, i):
    text, start = characters.text, i + (characters.text[i] == "¯")
    end = characters.run(start, is_digit)
    if end == start:
        raise Refused(characters.places[i], 2)
    value = int(text[start:end])
    if value > GREATEST:
        raise Refused(characters.places[i], 4)
    return end, -value if start > i else value


def read_token(characters, i):
    """The token at a character, and where the next one may begin."""
    text, place = characters.text, characters.places[i]
    c = text[i]
    if is_letter(c):
        end = characters.run(i, lambda d: is_letter(d) or is_digit(d))
        if end - i > 63:
            raise Refused(place, 5)
        return Token("name", place, text[i:end]), end
    if is_digit(c) or c == "¯":
        end, value = read_number(characters, i)
        return Token("number", place, value), end
    if c == "'":
        end, count = read_text(characters, i)
        return Token("text", place, count), end
    if c == "⎕" and i + 1 < len(text) and is_letter(text[i + 1]):
        end = characters.run(i + 1, lambda d: is_letter(d) or is_digit(d))
        if text[i + 1 : end] != "NUMS":
            raise Refused(place, 2)
        return Token("nums", place), end
    c = SECOND_SPELLINGS.get(c, c)
    if c not in SYMBOLS:
        raise Refused(place, 2)
    return Token(c, place), i + 1


def lines_of(source):
    """The lines, each with its first byte and its tokens."""
    characters = Characters(source)
    text, i = characters.text, 1 if characters.text.startswith("\ufeff") else 0
    lines, tokens, start = [], [], 0
    while i < len(text):
        if text[i] in " \t":
            i += 1
        elif text[i] == "\n" or text[i : i + 2] == "\r\n":
            i += 1 if text[i] == "\n" else 2
            lines.append((start, tokens))
            tokens, start = [], characters.places[i] if i < len(text) else len(source)
        elif text[i] == "⍝":
            i = characters.run(i, lambda c: c != "\n")
            i -= i < len(text) and text[i - 1] == "\r"
        else:
            token, i = read_token(characters, i)
            tokens.append(token)
    if characters.bad is not None:
        raise Refused(characters.bad, 1)
    return lines + [(start, tokens)]


# ---- Statements: each reader answers every end that its part may have, with the tree up to there

class Node:
    """A node with its arguments from left to right; `lists` are the entries of an index list, None where one is empty."""

    def __init__(self, kind, place, children=(), value=None, lists=()):
        self.kind, self.place, self.children, self.value, self.lists = kind, place, list(children), value, list(lists)

    def walk(self):
        yield self
        for child in self.children + [entry for entry in self.lists if entry]:
            yield from child.walk()


class Forms:
    def __init__(self, tokens, headers):
        self.tokens, self.headers, self.known = tokens, headers, {}

    def kind(self, i):
        return self.tokens[i].kind if i < len(self.tokens) else None

    def role(self, i):
        """A variable, or a function or a procedure with its number of arguments."""
        if self.kind(i) != "name":
            return None
        header = self.headers.get(self.tokens[i].value)
        return header.role() if header else "variable"

    def once(self, part, i):
        if (part, i) not in self.known:
            self.known[part, i] = list(getattr(self, part)(i))
        return self.known[part, i]

    def axis(self, i):
        yield i
        if [self.kind(i), self.kind(i + 1), self.kind(i + 2)] == ["[", "number", "]"]:
            yield i + 3

    def simple(self, i):
        token = self.tokens[i] if i < len(self.tokens) else Token(None, None)
        j = i
        while self.kind(j) == "number":
            j += 1
            yield j, Node("numbers", token.place, value=[t.value for t in self.tokens[i:j]])
        if token.kind in ("text", "⍞", "nums"):
            yield i + 1, Node(token.kind, token.place, value=token.value)
        if self.role(i) in ("variable", ("function", 0)):
            yield i + 1, Node("named", token.place, value=token.value)

    def operand(self, i):
        found = list(self.simple(i))
        if self.kind(i) == "(":
            found += [(j + 1, node) for j, node in self.once("value", i + 1) if self.kind(j) == ")"]
        for j, node in found:  # grows while brackets follow
            yield j, node
            if self.kind(j) == "[":
                entries = self.once("entries", j + 1)
                found += [(k + 1, Node("index", self.tokens[j].place, [node], lists=inside)) for k, inside in entries]

    def entries(self, i):
        """The entries of an index list up to its bracket, None where one is empty."""
        for j, entry in [(i, [None])] + [(j, [node]) for j, node in self.once("value", i)]:
            if self.kind(j) == "]":
                yield j, entry
            if self.kind(j) == ";":
                for k, rest in self.once("entries", j + 1):
                    yield k, entry + rest

    def before(self, i):
        """The ends of a function with one argument."""
        if self.kind(i) in MONADIC or self.role(i) == ("function", 1):
            yield i + 1
        if self.kind(i) in TURNS:
            yield from self.axis(i + 1)
        if self.kind(i) in SCALAR and self.kind(i + 1) in STROKES:
            yield from self.axis(i + 2)

    def between(self, i):
        """The ends of a function with two arguments."""
        if self.kind(i) in SCALAR or self.kind(i) in DYADIC or self.role(i) == ("function", 2):
            yield i + 1
        if self.kind(i) in TURNS or self.kind(i) in STROKES:
            yield from self.axis(i + 1)
        if (self.kind(i) == "∘" or self.kind(i) in SCALAR) and self.kind(i + 1) == "." and self.kind(i + 2) in SCALAR:
            yield i + 3

    def apply(self, i, end, arguments):
        """A function from its first word to its last: a name, or its symbols with the number of a named axis or None."""
        words = self.tokens[i:end]
        if words[0].kind == "name":
            return Node("named", words[0].place, arguments, words[0].value)
        axis = words[-2].value if words[-1].kind == "]" else None
        symbols = "".join(t.kind for t in words if t.kind not in ("[", "number", "]"))
        return Node("dyad" if len(arguments) == 2 else "mono", words[0].place, arguments, (symbols, axis))

    def value(self, i):
        operands = self.once("operand", i)
        yield from operands
        for j in self.before(i):
            for end, right in self.once("value", j):
                yield end, self.apply(i, j, [right])
        for j, left in operands:
            for k in self.between(j):
                for end, right in self.once("value", k):
                    yield end, self.apply(j, k, [left, right])
        yield from self.assigned(i)

    def assigned(self, i):
        targets = []
        if self.kind(i) in ("name", "⎕"):
            targets.append((i + 1, []))
        if self.kind(i) == "name" and self.kind(i + 1) == "[":
            targets += [(j + 1, inside) for j, inside in self.once("entries", i + 2)]
        for j, inside in targets:
            if self.kind(j) == "←":
                kind = "assigned" if self.kind(i) == "name" else "shown"
                for end, right in self.once("value", j + 1):
                    yield end, Node(kind, self.tokens[i].place, [right], self.tokens[i].value, inside)

    def statements(self):
        """Every statement that the tokens are, as the place of its branch, whether it is quiet, and its tree."""
        whole = len(self.tokens)
        if self.kind(0) == "→":
            yield from ((self.tokens[0].place, True, node) for end, node in self.once("value", 1) if end == whole)
        for end, node in self.once("value", 0):
            if end == whole:
                yield None, node.kind in ("assigned", "shown") and self.kind(0) != "(", node
        procedures = [(0, [])] + [(j, [left]) for j, left in self.once("operand", 0)]
        for i, left in procedures:
            for end, right in [(i + 1, [])] + [(end, [right]) for end, right in self.once("value", i + 1)]:
                arguments = left + right
                if end == whole and self.role(i) == ("procedure", len(arguments)) and (right or not left):
                    yield None, True, Node("named", self.tokens[i].place, arguments, self.tokens[i].value)


# ---- Functions

class Header:
    def __init__(self, name, result, left, right, local):
        self.name, self.result, self.left, self.right, self.local = name, result, left, right, local

    def role(self):
        return "function" if self.result else "procedure", (self.left is not None) + (self.right is not None)

    def names(self):
        return [t for t in (self.result, self.left, self.right) if t] + self.local


def header_of(tokens):
    result = None
    if [t.kind for t in tokens[:2]] == ["name", "←"]:
        result, tokens = tokens[0], tokens[2:]
    count = next((i for i, t in enumerate(tokens) if t.kind != "name"), len(tokens))
    names, rest = tokens[:count], tokens[count:]
    if not 1 <= count <= 3 or [t.kind for t in rest] != [";", "name"] * (len(rest) // 2):
        return None
    left = names[0] if count == 3 else None
    right = names[-1] if count > 1 else None
    return Header(names[1] if count == 3 else names[0], result, left, right, rest[1::2])


class Function:
    def __init__(self, start, tokens):
        self.start, self.dels, self.body, self.closing = start, tokens[0], [], None
        self.header = header_of(tokens[1:])
        self.lines = []  # a label or None, and a statement or None

    def labels(self):
        return [label for label, _ in self.lines if label]

    def local(self):
        return self.header.names() + self.labels()

    def mentions(self):
        """Each name in the lines: its place, the name, and whether it is assigned."""
        found = [(t.place, t.value, False) for t in self.labels()]
        for _, statement in self.lines:
            for node in statement[2].walk() if statement else ():
                if node.kind in ("named", "assigned"):
                    found.append((node.place, node.value, node.kind == "assigned"))
        return found


def is_declaration(tokens):
    kinds, values = [t.kind for t in tokens], [t.value for t in tokens]
    if kinds == ["name", "number"]:
        return values[0] == "ORIGIN" and values[1] in (0, 1)
    return kinds == ["name"] * 4 + ["number"] and values[0] == "VAR" and values[2] in ("NUM", "CHAR") \
        and values[3] == "RANK" and 0 <= values[4] <= 8


def statement_refusals(tokens, headers):
    """The refusals of a statement, and the statement if it has none of them."""
    refusals, depth = [], 0
    for t in tokens:
        if t.kind in "([" and depth == 32:
            refusals.append((t.place, 8))
            break
        depth = depth + 1 if t.kind in "([" else max(0, depth - 1) if t.kind in ")]" else depth
    deep = bool(refusals)
    for t, after in zip(tokens, tokens[1:]):
        niladic = after.kind == "name" and (after.value not in headers or headers[after.value].role()[1] == 0)
        if t.kind == "name" and t.value not in headers and (niladic or after.kind in ("number", "text", "(", "⍞", "nums")):
            refusals.append((t.place, 13))
            break
    if not tokens or deep:
        return refusals, None
    found = list(Forms(tokens, headers).statements())
    assert len(found) < 2, "a statement has two forms"
    if not found:
        return refusals or [(tokens[0].place, 7)], None
    if sum(1 for _ in found[0][2].walk()) > 256:
        refusals.append((tokens[0].place, 9))
    return refusals, found[0]


def parse(lines):
    functions, declared, refusals, origin, opened = [], [], [], None, None
    for start, tokens in lines:
        is_del = bool(tokens) and tokens[0].kind == "∇"
        if opened and is_del:
            opened.closing, opened = tokens, None
        elif opened:
            opened.body.append((start, tokens))
        elif is_del:
            opened = Function(start, tokens)
            functions.append(opened)
        elif tokens:
            if functions or not is_declaration(tokens) or len(tokens) == 2 and origin is not None:
                refusals.append((tokens[0].place, 11))
            elif len(tokens) == 2:
                origin = tokens[1].value
            else:
                declared.append(tokens)
    headers = {}
    for f in functions:
        if f.header:
            headers.setdefault(f.header.name.value, f.header)
    for f in functions:
        if not f.header or not f.closing:
            refusals.append((f.dels.place, 6))
        if f.closing and len(f.closing) > 1:
            refusals.append((f.closing[0].place, 6))
        refusals += [(start, 10) for start, _ in f.body[999:1000]]
        for _, tokens in f.body:
            label = tokens[0] if [t.kind for t in tokens[:2]] == ["name", ":"] else None
            found, statement = statement_refusals(tokens[2:] if label else tokens, headers)
            refusals += found
            f.lines.append((label, statement))
    refusals += [(f.start, 10) for f in functions[999:1000]]
    if refusals:
        raise Refused(*min(refusals))
    return functions, declared, 1 if origin is None else origin


# ---- Names

def seconds(tokens):
    met = set()
    for t in tokens:
        if t.value in met:
            yield t
        met.add(t.value)


def resolve(functions, declarations):
    heads, declared = [f.header.name for f in functions], [tokens[1] for tokens in declarations]
    names = {t.value for t in heads}
    twice = list(seconds(heads)) + list(seconds(declared)) + [t for t in declared if t.value in names]
    refusals = []
    for f in functions:
        twice += list(seconds(f.local())) + [t for t in f.local() if t.value in names]
        labels = {t.value for t in f.labels()}
        refusals += [(place, 16) for place, name, assigned in f.mentions() if assigned and name in names | labels]
    refusals += [(t.place, 12) for t in twice]
    refusals += shadows(functions, names)
    mains = [f.header for f in functions if f.header.name.value == "MAIN"]
    if not any(h.role() == ("procedure", 0) for h in mains):
        refusals.append((mains[0].name.place if mains else 0, 15))
    if refusals:
        raise Refused(*min(refusals))
    return functions[[f.header.name.value for f in functions].index("MAIN")]


def shadows(functions, names):
    first, mentioned, local = {}, [], []
    for i, f in enumerate(functions):
        first.setdefault(f.header.name.value, i)
        mentioned.append(f.mentions())
        local.append({t.value for t in f.local()})
    for i in range(len(functions)):
        reached, waiting = set(), [i]
        while waiting:
            for _, name, _ in mentioned[waiting.pop()]:
                if name in names and first[name] not in reached:
                    reached.add(first[name])
                    waiting.append(first[name])
        for j in reached:
            for place, name, _ in mentioned[j]:
                if name not in names and name not in local[j] and name in local[i]:
                    yield place, 14


# ---- What is built

def is_built(node, routines, fact):
    """Whether a node is built; `fact` is that of a name that is read."""
    if node.kind == "numbers":
        return len(node.value) == 1
    if node.kind == "named":
        return node.value in routines or fact is None or fact[1] == ()
    if node.kind == "assigned":
        return not node.lists
    return node.kind == "mono" and node.value in MONADIC_BUILT or node.kind == "dyad" and node.value in DYADIC_BUILT


def later(functions, typing):
    """The places of what is not built."""
    for f in functions:
        for _, statement in f.lines:
            for node in statement[2].walk() if statement else ():
                if not is_built(node, typing.routines, typing.fact(("node", node))):
                    yield node.place


def checked(source):
    """The functions of a source that is built, else its first refusal."""
    if len(source) > 262144:
        raise Refused(262144, 23)
    functions, declarations, origin = parse(lines_of(source))
    main = resolve(functions, declarations)
    declared = {tokens[1].value: (tokens[2].value, tokens[4].value) for tokens in declarations}
    typing = typing_rules.Typing(functions, declared, origin)
    for refusal in typing.all_refusals()[:1]:
        raise Refused(*refusal)
    for place in sorted(later(functions, typing))[:1]:
        raise Refused(place, 90)
    return functions, main


def run(source, most_lines=20000):
    """The status, what is written to standard output and what to standard error. The status is None where the program goes
    on behind that many lines with statements."""
    try:
        functions, main = checked(source)
    except Refused as r:
        return 2, "", f"REFUSED {r.number} {WORDS[r.number]} AT {r.place}\n"
    return evaluation.Evaluation(functions, most_lines).run(main)
