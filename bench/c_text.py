#!/usr/bin/env python3
"""Writes a large C text of the profile, for timing its reader.

usage: c_text.py SMALL [BYTES]

SMALL is any text that aplc wrote; its preamble and tail are taken over. The text has at least BYTES bytes
(60,000,000 where no number is given), with every form of statement and expression, names of many digits, tables,
and blocks to the deepest nesting. It goes to standard output.
"""
import sys

HEADINGS = (b"static const int64_t k0[", b"static int64_t g0", b"static int64_t *h0", b"static void f0(void);")
TAIL = b"int main(void) {\n"

STATEMENTS = b"""v0 = 9223372036854775807LL;
v1 = add(v0, (v0 + 1LL));
g0 = sub((g1 * v12), 0LL);
v2 = mul(k1[v0], k0[(v1 % 3LL)]);
v3 = width((v0 && (v1 || v2)));
v4 = read_n;
b0 = cells((v0 <= v1));
b1 = b0;
h0 = 0;
b2 = read_text();
b3 = read_nums();
b0[(v0 - 1LL)] = b1[h0[v2]];
drop(b1);
put_num(v3, 12LL);
put_char(10LL);
at("MAIN", 17);
fault(6);
f1();
if ((v0 != v1)) {
return;
} else {
while ((v1 > 0LL)) {
v1 = (v1 / 2LL);
}
}
switch (v5) {
case 0: {
v6 = (v5 == v7);
} break;
case 1000000: {
} break;
default: {
put_char(((v8 >= v9) < v10));
} break;
}
"""


def names(item, count):
    return b", ".join(item % k for k in range(count))


def main():
    small = open(sys.argv[1], "rb").read()
    wanted = int(sys.argv[2]) if len(sys.argv) > 2 else 60_000_000
    preamble = small[: min(at for at in (small.find(b"\n" + heading) for heading in HEADINGS) if at >= 0) + 1]
    tail = small[small.rindex(TAIL):]
    deep = b"while (v0) {\n" * 256 + b"}\n" * 256
    out = sys.stdout.buffer
    out.write(preamble)
    out.write(b"static const int64_t k0[3] = {1, -2, 9223372036854775807};\n")
    out.write(b"static const int64_t k1[100000] = {%s};\n" % b", ".join(b"%d" % (k * 7919 - 400000000) for k in range(100000)))
    out.write(b"static int64_t g0, g1;\nstatic int64_t *h0;\nstatic void f0(void);\nstatic void f1(void);\n")
    heads = b"int64_t %s;\nint64_t %s;\n" % (names(b"v%d", 100000), names(b"*b%d = 0", 100000))
    out.write(b"static void f0(void) {\n" + heads)
    written = len(preamble) + len(heads)
    while written < wanted:
        block = deep + STATEMENTS * 100
        out.write(block)
        written += len(block)
    out.write(b"}\nstatic void f1(void) {\n}\n" + tail)


main()
