"""The facts of a program, and what they refuse, read from docs/TYPING.md alone.

A fact is None where nothing is known to come (Unset), else a kind and a shape: the lengths of the axes, each a number or
None, or None for a mixed rank. All facts rise together from Unset until no line raises one.
"""

LIMIT = 2147483647
MIXED = ("Mixed", None)
NUMBERS = ("Bit", "Num")
COMPARISONS, TRUTHS, EXTREMES = set("<≤=≥>≠"), set("∧∨⍲⍱"), set("×⌈⌊|")


class Broken(Exception):
    """A node breaks a condition: the number of its refusal."""

    def __init__(self, number):
        super().__init__(number)
        self.number = number


def wants(condition, number):
    if not condition:
        raise Broken(number)


# ---- Facts

def is_mixed(fact):
    return fact is not None and (fact[0] == "Mixed" or fact[1] is None)


def join(f, g):
    if f is None or g is None:
        return f or g
    kinds = {f[0], g[0]}
    kind = f[0] if len(kinds) == 1 else "Num" if kinds == {"Bit", "Num"} else "Mixed"
    if f[1] is None or g[1] is None or len(f[1]) != len(g[1]):
        return kind, None
    return kind, tuple(m if m == n else None for m, n in zip(f[1], g[1]))


def mixed_number(fact):
    return 17 if fact[0] == "Mixed" else 18


def settled(fact):
    return MIXED if is_mixed(fact) else fact


def within(n):
    return n if n is not None and 0 <= n <= LIMIT else None


def literal(values, kind):
    return kind, () if len(values) == 1 else (within(len(values)),)


def number_literal(values):
    return literal(values, "Bit" if all(v in (0, 1) for v in values) else "Num")


# ---- Functions with one argument

def axis_at(symbol, named, rank, origin):
    """The axis along which a function goes, or None for a scalar."""
    if named is not None:
        wants(0 <= named - origin < rank, 22)
        return named - origin
    if rank == 0:
        return None
    return 0 if symbol in "⌿⍀⊖" else rank - 1


def numeric(kind):
    wants(kind in NUMBERS, 17)


def without(shape, axis):
    return shape if axis is None else shape[:axis] + shape[axis + 1 :]


def product(shape):
    result = 1
    for n in shape:
        if n is None:
            return None
        result *= n
    return result


def along(symbols, axis, kind, shape, origin):
    """A reduction or a scan."""
    numeric(kind)
    f, stroke = symbols
    at = axis_at(stroke, axis, len(shape), origin)
    if stroke in "/⌿":
        return "Bit" if kind == "Bit" and f not in "+-⌈⌊" else "Num", without(shape, at)
    return "Bit" if kind == "Bit" and f not in "+-" else "Num", shape


def monadic(function, right, origin, values):
    symbols, axis = function
    kind, shape = right
    if len(symbols) == 2:
        return along(symbols, axis, kind, shape, origin)
    if symbols == "⍴":
        return "Num", (len(shape),)
    if symbols == ",":
        return kind, (within(product(shape)),)
    if symbols == "⍉":
        return kind, shape[::-1]
    if symbols in "⌽⊖":
        axis_at(symbols, axis, len(shape), origin)
        return right
    numeric(kind)
    if symbols == "⍳":
        wants(len(shape) < 2, 18)
        return "Num", (within(values[0]) if values and len(values) == 1 else None,)
    return "Num" if symbols == "-" else "Bit" if symbols == "~" else kind, shape


# ---- Functions with two arguments

def scalar_kind(f, left, right):
    wants(f in "=≠" or left in NUMBERS and right in NUMBERS, 17)
    if f in COMPARISONS | TRUTHS:
        return "Bit"
    return "Bit" if f in EXTREMES and left == right == "Bit" else "Num"


def scalar(f, left, right):
    kind, (xs, ys) = scalar_kind(f, left[0], right[0]), (left[1], right[1])
    wants(not xs or not ys or len(xs) == len(ys), 18)
    if not xs or not ys:
        return kind, xs or ys
    if None in xs + ys:
        return kind, (None,) * len(xs)
    if xs == ys or product(ys) == 1:
        return kind, xs
    return kind, ys if product(xs) == 1 else (None,) * len(xs)


def reshape(left, right, values):
    (kind, xs), (of, _) = left, right
    numeric(kind)
    wants(len(xs) < 2, 18)
    rank = xs[0] if xs else 1
    wants(rank is not None, 19)
    wants(rank <= 8, 18)
    return of, tuple(within(v) for v in values) if values is not None else (None,) * rank


def catenate(left, right):
    (kind, xs), (of, ys) = left, right
    wants(kind == of == "Char" or kind in NUMBERS and of in NUMBERS, 17)
    wants(not xs or not ys or len(xs) == len(ys), 18)
    result = "Char" if kind == "Char" else "Bit" if kind == of == "Bit" else "Num"
    if not xs and not ys:
        return result, (2,)
    if not xs or not ys:
        last = (xs or ys)[-1]
        return result, (None,) * (len(xs or ys) - 1) + (within(last + 1) if last is not None else None,)
    last = None if xs[-1] is None or ys[-1] is None else within(xs[-1] + ys[-1])
    return result, tuple(m if m == n else None for m, n in zip(xs[:-1], ys[:-1])) + (last,)


def part(symbol, left, right, values):
    """A take or a drop."""
    (kind, xs), (of, ys) = left, right
    numeric(kind)
    wants(len(xs) == 0 and len(ys) < 2 or len(xs) == 1 and len(ys) >= 1, 18)
    rank = max(len(ys), 1)
    if symbol == "↑" and values is not None and len(values) == rank:
        return of, tuple(within(abs(v)) for v in values)
    return of, (None,) * rank


def transpose(right, values, origin):
    of, ys = right
    wants(values is not None, 20)
    wants(len(values) == len(ys), 18)
    axes = [v - origin for v in values]
    wants(set(axes) == set(range(max(axes) + 1)), 22)
    falls = [[n for a, n in zip(axes, ys) if a == axis] for axis in range(max(axes) + 1)]
    return of, tuple(None if None in lengths else min(lengths) for lengths in falls)


def chosen(symbol, axis, left, right, origin):
    """A replication or an expansion."""
    (kind, xs), (of, ys) = left, right
    numeric(kind)
    wants(len(xs) < 2, 18)
    ys = ys or (1,)
    at = axis_at(symbol, axis, len(ys), origin)
    length = xs[0] if xs and symbol in "\\⍀" else None
    return of, ys[:at] + (length,) + ys[at + 1 :]


def inner(f, g, left, right):
    (kind, xs), (of, ys) = left, right
    wants(kind in NUMBERS and of in NUMBERS, 17)
    shape = xs[:-1] + ys[1:]
    wants(len(shape) <= 8, 18)
    pairs = scalar_kind(g, kind, of)
    return "Bit" if pairs == "Bit" and f not in "+-⌈⌊" else "Num", shape


def dyadic(function, left, right, origin, values):
    symbols, axis = function
    (kind, xs), (of, ys) = left, right
    if symbols[:2] == "∘.":
        result = scalar_kind(symbols[2], kind, of)
        wants(len(xs + ys) <= 8, 18)
        return result, xs + ys
    if len(symbols) == 3:
        return inner(symbols[0], symbols[2], left, right)
    if symbols == "⍴":
        return reshape(left, right, values)
    if symbols == ",":
        return catenate(left, right)
    if symbols == "⍳":
        wants(len(xs) == 1, 18)
        return "Num", ys
    if symbols == "∊":
        return "Bit", xs
    if symbols in "↑↓":
        return part(symbols, left, right, values)
    if symbols == "⍉":
        return transpose(right, values, origin)
    if symbols in "/⌿\\⍀":
        return chosen(symbols, axis, left, right, origin)
    if symbols in "⌽⊖":
        numeric(kind)
        wants(len(xs) == 0, 18)
        axis_at(symbols, axis, len(ys), origin)
        return right
    return scalar(symbols, left, right)


# ---- Index lists

def indexed(array, lists):
    """The lengths of the lists joined."""
    wants(all(entry is None or entry[0] in NUMBERS for entry in lists), 17)
    wants(len(lists) == len(array[1]), 18)
    shape = ()
    for length, entry in zip(array[1], lists):
        shape += (length,) if entry is None else entry[1]
    wants(len(shape) <= 8, 18)
    return array[0], shape


def changed(array, lists, value):
    """The value of an indexed assignment. Of several conditions the smallest number counts."""
    numbers = set()
    try:
        shape = indexed(array, lists)[1]
    except Broken as broken:
        numbers.add(broken.number)
        shape = None
    if not (array[0] == value[0] == "Char" or array[0] in NUMBERS and value[0] in NUMBERS):
        numbers.add(17)
    if shape is not None and len(value[1]) not in (0, len(shape)):
        numbers.add(18)
    wants(not numbers, min(numbers, default=0))
    return value


# ---- Programs

class Routine:
    """A function with the facts at the start of each of its lines."""

    def __init__(self, function):
        header = function.header
        self.lines = [statement for _, statement in function.lines]
        self.labels = {label.value: n for n, (label, _) in enumerate(function.lines) if label}
        self.local = {t.value for t in header.names()}
        self.result = header.result and header.result.value
        self.left, self.right = (t and t.value for t in (header.left, header.right))
        self.starts = [{} for _ in self.lines]


class Typing:
    def __init__(self, functions, declared, origin):
        self.origin, self.routines = origin, {}
        for f in functions:
            self.routines.setdefault(f.header.name.value, Routine(f))
        kinds = {"NUM": "Num", "CHAR": "Char"}
        self.declared = {name: (kinds[kind], (None,) * rank) for name, (kind, rank) in declared.items()}
        self.table, self.rose, self.refusals, self.routine = {}, True, set(), None

    def fact(self, key):
        return self.table.get(key)

    def raise_to(self, key, fact):
        new = join(self.fact(key), fact)
        if new != self.fact(key):
            self.table[key], self.rose = new, True

    def refuse(self, place, number):
        self.refusals.add((place, number))

    # names

    def read(self, name, names):
        if name in self.routine.labels:
            return "Num", ()
        if name in self.routine.local:
            return names.get(name)
        return self.declared.get(name) or self.fact(("global", name))

    def write(self, name, fact, names, place):
        """Whether the declaration of a name allows it."""
        if name in self.routine.local:
            names[name] = fact
        elif name in self.declared:
            if join(fact, self.declared[name]) != self.declared[name]:
                self.refuse(place, 21)
                return False
        else:
            self.raise_to(("global", name), fact)
        return True

    def check_read(self, fact, place):
        if is_mixed(fact):
            self.refuse(place, mixed_number(fact))

    # nodes

    def node(self, node, names):
        fact = getattr(self, node.kind)(node, names)
        self.raise_to(("node", node), fact)
        return fact

    def by_rule(self, node, facts, rule):
        if None in facts:
            return None
        if any(map(is_mixed, facts)):
            return MIXED
        try:
            return rule()
        except Broken as broken:
            self.refuse(node.place, broken.number)
            return MIXED

    def numbers(self, node, names):
        return number_literal(node.value)

    def text(self, node, names):
        return literal(range(node.value), "Char")

    def nums(self, node, names):
        return "Num", (None,)

    def line(self, node, names):
        return "Char", (None,)

    def named(self, node, names):
        if node.value in self.routines:
            return self.called(node, names)
        fact = self.read(node.value, names)
        self.check_read(fact, node.place)
        return fact

    def called(self, node, names):
        routine = self.routines[node.value]
        facts = [self.node(child, names) for child in reversed(node.children)]
        for key, fact in zip(("right", "left"), facts):
            self.raise_to((key, node.value), fact)
        fact = self.fact(("result", node.value)) if routine.result else None
        fact = None if None in facts else MIXED if any(map(is_mixed, facts)) else fact
        if routine.result:
            self.check_read(fact, node.place)
        return fact

    def mono(self, node, names):
        right = self.node(node.children[0], names)
        values = node.children[0].value if node.children[0].kind == "numbers" else None
        return self.by_rule(node, [right], lambda: monadic(node.value, right, self.origin, values))

    def dyad(self, node, names):
        right = self.node(node.children[1], names)
        left = self.node(node.children[0], names)
        values = node.children[0].value if node.children[0].kind == "numbers" else None
        return self.by_rule(node, [left, right], lambda: dyadic(node.value, left, right, self.origin, values))

    def entries(self, lists, names):
        facts = [entry and self.node(entry, names) for entry in reversed(lists)]
        return facts[::-1], [f for f, entry in zip(facts[::-1], lists) if entry]

    def index(self, node, names):
        lists, there = self.entries(node.lists, names)
        array = self.node(node.children[0], names)
        return self.by_rule(node, [array] + there, lambda: indexed(array, lists))

    def assigned(self, node, names):
        value = self.node(node.children[0], names)
        if node.lists:
            return self.assigned_at(node, value, names)
        fact = settled(value)
        return fact if self.write(node.value, fact, names, node.place) else MIXED

    def assigned_at(self, node, value, names):
        lists, there = self.entries(node.lists, names)
        old = self.read(node.value, names)
        self.check_read(old, node.place)
        fact = self.by_rule(node, [old, value] + there, lambda: changed(old, lists, value))
        new = ("Num", old[1]) if old and old[0] == "Bit" and value and value[0] != "Bit" else old
        return fact if self.write(node.value, new, names, node.place) else MIXED

    def shown(self, node, names):
        return settled(self.node(node.children[0], names))

    # lines

    def arrive(self, name, line, names):
        routine = self.routine
        if not 0 <= line < len(routine.lines):
            if routine.result:
                self.raise_to(("result", name), names.get(routine.result))
            return
        start = routine.starts[line]
        for local, fact in names.items():
            new = join(start.get(local), fact)
            if new != start.get(local):
                start[local], self.rose = new, True

    def next_lines(self, line, branch, node):
        last, labels = len(self.routine.lines), self.routine.labels
        if branch is None:
            return [line + 1]
        if node.kind == "named" and node.value in labels:
            return [labels[node.value]]
        if node.kind == "dyad" and node.value in (("/", None), ("⍴", None)) and node.children[1].kind == "named" \
                and node.children[1].value in labels:
            return [labels[node.children[1].value], line + 1]
        if node.kind == "numbers" and len(node.value) == 1:
            return [node.value[0] - 1 if 1 <= node.value[0] <= last else last]
        return range(last + 1)

    def one_line(self, name, line):
        names, statement = dict(self.routine.starts[line]), self.routine.lines[line]
        branch, node = (statement[0], statement[2]) if statement else (None, None)
        if node:
            fact = self.node(node, names)
            if branch is not None and fact is not None and not is_mixed(fact):
                try:
                    numeric(fact[0])
                    wants(len(fact[1]) < 2, 18)
                except Broken as broken:
                    self.refuse(branch, broken.number)
        for m in self.next_lines(line, branch, node):
            self.arrive(name, m, names)

    def one_round(self):
        self.rose, self.refusals = False, set()
        for name, routine in self.routines.items():
            self.routine = routine
            sides = ((routine.left, ("left", name)), (routine.right, ("right", name)))
            self.arrive(name, 0, {local: self.fact(key) for local, key in sides if local})
            for line in range(len(routine.lines)):
                self.one_line(name, line)

    def all_refusals(self):
        """All refusals under the least facts, as places with numbers, the first of them in front."""
        while self.rose:
            self.one_round()
        return sorted(self.refusals)


# `⍞` is no name of a method
setattr(Typing, "⍞", Typing.line)
