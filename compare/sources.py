"""Random sources: sums, all forms of statements, functions that call each other, arrays whose kinds and ranks mostly fit,
sources at the limits, broken bytes.
"""

SYMBOLS = list("+-×⌈⌊<≤=≥>≠∧∨⍲⍱~⍴,⍳↑↓⌽⊖⍉/⌿\\⍀∊.∘←→()[];:⍞⎕∇|")
NAMES = ["A", "B", "X", "F", "G", "H", "MAIN", "L", "R", "ORIGIN", "VAR", "NUM", "RANK"]
GREAT = ["9223372036854775807", "¯9223372036854775807", "4611686018427387904", "3037000500", "007"]
BEFORE = list("+-×⌈⌊~⍴,⍳⍉|⌽⊖") + ["+/", "-\\", "×⌿[1]", "⌽[2]", "F ", "G "]
BETWEEN = list("+-×⌈<=∧⍴,⍳↑↓⌽/\\∊|") + ["∘.+", "+.×", " F ", " G ", "⍀[1]"]
ODD = ["F", "G", "H", "F 1", "1 G 2", "H H", "A F 1", "X", "A 1", "A(1)", "A B←1"]
DECLARATIONS = ["ORIGIN 0", "ORIGIN 1", "VAR A NUM RANK 0", "VAR B CHAR RANK 8", "VAR F NUM RANK 1", "ORIGIN 2", "VAR A NUM", "⍝ x", ""]
TYPED = ["VAR C NUM RANK 1", "VAR D CHAR RANK 1", "VAR E NUM RANK 0", "VAR T NUM RANK 2"]
SIMPLE = ["0", "1", "3", "1 0", "1 2 3", "2 3", "¯2 0", "'x'", "'abc'", "''", "⎕NUMS", "⍞", "X", "Y", "A", "C", "D", "E", "T"]
ONE = list("+-×⌈⌊~⍴,⍳⍉|⌽⊖") + ["+/", "∧\\", "×⌿", "⌽[1]", "⌈/[1]", "-\\[2]", "F "]
TWO = list("+-×⌈⌊|=≠<≥∧⍲⍴⍴,,⍳∊↑↓⌽⊖⍉/\\⌿") + ["/[1]", "⌽[1]", "∘.+", "∘.=", "+.×", "∧.=", " G "]
LEFT = ["0", "1", "2", "1 0", "2 3", "2 2 2", "¯1", "1 2", "2 1", "'a'", "X", "Y", "A", "C", "E", "(⍳2)", "(⍴X)"]


class Sources:
    def __init__(self, random):
        self.random = random
        self.pick = random.choice

    def likely(self, share):
        return self.random.random() < share

    def number(self):
        if self.likely(0.001):
            return "9223372036854775808"
        return self.pick(GREAT) if self.likely(0.15) else self.pick(["", "", "", "¯"]) + str(self.random.randint(0, 12))

    def sum(self, depth):
        if depth == 0 or self.likely(0.3):
            return self.number()
        if self.likely(0.2):
            return "(" + self.sum(depth - 1) + ")"
        left = self.number() if self.likely(0.6) else "(" + self.sum(depth - 1) + ")"
        blank = self.pick(["", " "])
        return left + blank + self.pick("+-×") + blank + self.sum(depth - 1)

    def indices(self, depth):
        entries = ["", self.value(depth), self.value(depth)]
        return "[" + self.pick(entries) + self.pick(["", ";"]) + self.pick(entries) + "]"

    def value(self, depth):
        if depth <= 0 or self.likely(0.2):
            return self.pick([self.number(), self.number() + " " + self.number(), "'ab'", self.pick(NAMES), "⍞", "⎕NUMS", "''''"])
        right = self.value(depth - 1)
        left = self.pick([self.number(), "(" + self.value(depth - 1) + ")", self.pick(NAMES), self.number() + " " + self.number()])
        name = self.pick(NAMES)
        return self.pick([
            "(" + right + ")", self.pick(BEFORE) + right, name + "←" + right, "⎕←" + right,
            name + self.indices(depth - 1) + "←" + right, left + self.indices(depth - 1), left + self.pick(BETWEEN) + right,
            left + self.pick(BETWEEN) + right, left + self.pick(BETWEEN) + right,
        ])

    def line(self):
        label = self.pick(["", "", "", "", "L:", "A:", "X: ", "F:"])
        comment = self.pick(["", "", "", "⍝ c", " ⍝ ' ∇"])
        kinds = [
            lambda: self.sum(5), lambda: self.sum(3), lambda: self.sum(2), lambda: self.value(4), lambda: self.value(3),
            lambda: self.value(2), lambda: "→" + self.value(2), lambda: "", lambda: self.pick(ODD), self.words,
        ]
        return label + self.pick(kinds)() + comment

    def words(self):
        return "".join(self.pick(SYMBOLS + NAMES + [self.number(), " ", "'"]) for _ in range(self.random.randint(1, 7)))

    def header(self):
        f = self.pick(["F", "G", "H", "MAIN", "X"])
        local = "".join(";" + self.pick(NAMES) for _ in range(self.pick([0, 0, 1, 2])))
        return "∇" + self.pick(["", "", "R←", "A←"]) + self.pick([f, f + " B", "A " + f + " B", f]) + local

    def function(self, header, line):
        closing = "∇" if self.likely(0.97) else self.pick(["∇ 1", "∇∇", ""])
        return [header] + [line() for _ in range(self.random.randint(0, 5))] + [closing]

    def forms(self):
        """Functions of lines of any form."""
        lines = [self.pick(DECLARATIONS) for _ in range(self.pick([0, 0, 0, 1, 2]))]
        for header in self.random.sample(["∇MAIN" + self.pick(["", ";X", ";A;B"]), self.header(), self.header()], self.pick([1, 2, 3])):
            lines += self.function(header, self.line)
            lines += [self.pick(["", "1", "⍝", "ORIGIN 1"])] if self.likely(0.05) else []
        return lines

    def sums(self):
        """What is built alone."""
        lines = self.function("∇MAIN", lambda: self.sum(6))
        return lines + self.function("∇F B", lambda: self.sum(3)) if self.likely(0.3) else lines

    def call(self, names):
        variable = self.pick("XYABZ")
        return self.pick([
            self.pick(names), self.pick(names), variable, variable + "←1", variable + "[1]←2", variable + ":" + self.pick(names),
            "L:", "→L", "1+2", "", "⎕←Y",
        ])

    def calls(self):
        """Functions that call each other, with local names."""
        names = ["MAIN"] + self.random.sample(["F", "G", "H", "P", "Q"], self.random.randint(1, 4))
        lines = []
        for f in self.random.sample(names, len(names)):
            local = "".join(";" + x for x in self.random.sample(list("XYABZ"), self.pick([0, 0, 1, 2])))
            lines += self.function("∇" + f + local, lambda: self.call(names))
        return lines

    def fitting(self, depth):
        """A value of which most functions can take what stands to their right."""
        if depth <= 0 or self.likely(0.25):
            return self.pick(SIMPLE)
        right = self.fitting(depth - 1)
        return self.pick([
            self.pick(ONE) + right, self.pick(ONE) + right, self.pick(LEFT) + self.pick(TWO) + right,
            self.pick(LEFT) + self.pick(TWO) + right, "(" + self.fitting(depth - 2) + ")" + self.pick(TWO) + right,
            self.pick("XYA") + "←" + right, "(" + right + ")[" + self.pick(["", "1", "1 2", "X"]) + self.pick(["", "", ";", ";1"]) + "]",
            self.pick("XYAC") + "[" + self.pick(["1", "", "1;", "X"]) + "]←" + right, "⎕←" + right,
        ])

    def fitting_line(self):
        value = self.fitting(self.pick([1, 2, 3]))
        return self.pick([
            self.pick("XYACDET") + "←" + value, self.pick("XY") + "←" + value, value, "P " + value, "→L", "→(" + value + ")/L",
            "→(" + value + ")⍴L", "→" + value, "→" + str(self.random.randint(0, 5)), "",
        ])

    def typed(self):
        """Functions that hand arrays to each other."""
        lines = self.random.sample(TYPED, self.pick([0, 0, 1, 2, 4])) + self.pick([[], [], ["ORIGIN 0"]])
        headers = ["∇MAIN", "∇R←F B", "∇R←V G B", "∇P B"]
        for header in self.random.sample(headers, 4):
            body = [self.fitting_line() for _ in range(self.random.randint(1, 5))]
            if header.startswith("∇R"):
                body.append("R←" + self.pick(["B", self.fitting(2)]))
            labelled = self.random.randrange(len(body))
            body[labelled] = "L:" + body[labelled]
            lines += [header + self.pick([";X;Y", ";X;Y", ";X;Y", ";X", ""])] + body + ["∇"]
        return lines

    def scalar(self, depth, variables, labels, calls):
        """A value of one number, of names and of calls as (name, count of arguments)."""
        names = variables + labels
        if depth <= 0 or self.likely(0.25):
            return self.pick(names + names + [self.number(), self.number()])
        right = self.scalar(depth - 1, variables, labels, calls)
        left = self.pick(names + [self.number(), "(" + self.scalar(depth - 2, variables, labels, calls) + ")"])
        f, count = self.pick(calls)
        return self.pick([
            left + self.pick("+-×") + right, left + self.pick("+-×") + right, left + self.pick("+-×") + right,
            self.pick("+-") + right, self.pick(variables) + "←" + right, "(" + right + ")" + self.pick("+-×") + left,
            [left + self.pick("+-×") + f, f + " " + right, left + " " + f + " " + right][count],
        ])

    def scalar_line(self, variables, labels, calls):
        value = self.scalar(self.pick([1, 2, 3, 4]), variables, labels[:1], calls)
        name, label = self.pick(variables), self.pick(labels * 3 + ["0"])
        f, count = self.pick(calls)
        call = self.pick(["1 ", "X "]) * (count == 2) + f + self.pick([" 2", " X", " " + value]) * (count > 0)
        assigned = name + "←" + self.pick([value, value, name + self.pick("-+") + "1"])
        branch = "→" + self.pick([label, label, label + "×" + name, label + "+" + name, str(self.random.randint(0, 9)), value])
        return self.pick([assigned] * 3 + [value] * 4 + [call] * 2 + [branch] * 2 + [""])

    def scalar_function(self, f, count, result, calls):
        local = [f + x for x in self.random.sample("XYZ", self.pick([0, 0, 1, 2]))]
        labels = [f + x for x in self.random.sample("LMN", self.pick([0, 1, 2, 3]))]
        variables = ["X", "Y"] + local + ["A", "B"][2 - count :] + ["R"] * result
        if self.likely(0.02):
            variables += [self.pick(["Z", "FX", f + "L"])]
        first = [x + "←" + self.number() for x in (["X", "Y"] if f == "MAIN" else []) + local + ["R"] * result if self.likely(0.93)]
        body = [self.scalar_line(variables, labels, calls) for _ in range(self.random.randint(1, 6))]
        if result and self.likely(0.7):
            body.append("R←" + self.scalar(2, variables, [], calls))
        for at, label in zip(self.random.sample(range(len(body)), min(len(labels), len(body))), labels):
            body[at] = label + ":" + body[at]
        header = "R←" * result + {0: f, 1: f + " B", 2: "A " + f + " B"}[count]
        return ["∇" + header + "".join(";" + x for x in local)] + first + body + ["∇"]

    def scalars(self):
        """Functions of scalars that call each other, with labels, branches, local and global names."""
        shapes = [("F", 1), ("G", 2), ("H", 0), ("P", 1)][: self.random.randint(1, 4)]
        results = {f: self.likely(0.85) for f, _ in shapes}
        calls = [(f, count) for f, count in shapes if results[f]] or shapes
        lines = []
        for f, count in self.random.sample(shapes + [("MAIN", 0)], len(shapes) + 1):
            lines += self.scalar_function(f, count, results.get(f, False), calls)
        return lines

    def limits(self):
        """Nesting, nodes, lines and functions about as many as there may be."""
        count = self.random.randint(30, 34)
        opened = [self.pick(["(", "(", "A["]) for _ in range(count)]
        closed = "".join(")" if x == "(" else "]" for x in reversed(opened))
        many = self.random.randint(997, 1001)
        return self.pick([
            ["∇MAIN", "1+" + "".join(opened) + "1" + closed + self.pick(["", ")", "("]), "∇"],
            ["∇MAIN", "1+" * self.random.randint(120, 132) + self.pick(["1", "A", "(1)", "-1"]), "∇"],
            ["∇MAIN"] + [""] * many + [self.pick(["", "1+", "1"]), "∇"],
            ["∇MAIN", "∇"] + [line for i in range(many) for line in ("∇F%d" % i, "∇")],
        ])

    def broken(self, source):
        """The same with a few bytes changed."""
        source = bytearray(source)
        for _ in range(self.random.randint(1, 3)):
            at = self.random.randrange(len(source))
            source[at : at + 1] = self.pick([bytes([self.random.randrange(256)]), b"", bytes([self.pick(b"'()\r\n\t ;:1A+")]), source[at : at + 1] * 2])
        return bytes(source)

    def source(self):
        share = self.random.random()
        kinds = [
            (0.01, self.limits), (0.1, self.sums), (0.2, self.calls), (0.6, self.scalars), (0.8, self.typed), (1, self.forms),
        ]
        lines = next(lines_of for most, lines_of in kinds if share < most)()
        end = self.pick(["\n", "\n", "\n", "\r\n"])
        source = (end.join(lines) + (end if self.likely(0.9) else "")).encode()
        if self.likely(0.05):
            source = b"\xef\xbb\xbf" + source
        return self.broken(source) if self.likely(0.12) and source else source
