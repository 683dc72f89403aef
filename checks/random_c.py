#!/usr/bin/env python3
"""Random programs in C that mean the same to every compiler: no sum of signed numbers is out of range, no quotient is by 0, no index is out
of bounds, and each function counts down what keeps the program short. A program prints what is in its data at the end.

usage: checks/random_c.py SEED      prints one
"""
import random
import sys

TYPES = ("signed char", "unsigned char", "short", "unsigned short", "int", "unsigned", "long long", "unsigned long long")
FUNCTIONS, ELEMENTS, CALLS = 4, 8, 300
HEAD = """#include <stdio.h>
#include <string.h>

struct record {{
    unsigned narrow : 5;
    int signed_part : 11;
    {0} first;
    {1} second[3];
    struct record *next;
}};

static int left = {2};
static unsigned long long sum;
static {3} bytes[{4}];
static {5} numbers[{4}];
static struct record records[2] = {{{{1, -2, 3, {{4, 5, 6}}, &records[1]}}, {{7, -8, 9, {{10, 11, 12}}, &records[0]}}}};
static double fraction = 1.5;

static void add(unsigned long long value) {{
    sum = (sum << 7 | sum >> 57) ^ value * 0x9e3779b97f4a7c15ull;
}}

static long long divide(long long x, long long y) {{
    return y == 0 || y == -1 ? x : x / y;
}}

static long long rest(long long x, long long y) {{
    return y == 0 || y == -1 ? x : x % y;
}}

static unsigned divide_word(unsigned x, unsigned y) {{
    return y ? x / y : x;
}}

static int rest_word(int x, int y) {{
    return y == 0 || y == -1 ? x : x % y;
}}
"""
TAIL = """
int main(void) {{
{0}
    for (int i = 0; i < {1}; i++)
        add(bytes[i]), add(numbers[i]);
    for (int i = 0; i < 2; i++)
        add(records[i].narrow), add(records[i].signed_part), add(records[i].first), add(records[i].second[i]);
    memcpy(&bytes, &fraction, sizeof bytes < sizeof fraction ? sizeof bytes : sizeof fraction);
    add(bytes[0]), add(bytes[3]);
    printf("%08x%08x %d\\n", (unsigned) (sum >> 32), (unsigned) sum, left);
    return sum & 127;
}}
"""


class Program:
    """A program that is being made: its source of randomness, and the names that may be read and written."""

    def __init__(self, seed):
        self.draw = random.Random(seed)
        self.names = []
        self.functions = 0
        self.loops = 0

    def number(self):
        """Returns a constant, often one at an edge."""
        value = self.draw.choice((0, 1, 2, 5, 7, 127, 128, 255, 256, 32767, 65535, 2**31 - 1, 2**31, 2**32 - 1, 2**63, self.draw.randrange(2**32)))
        return f"{value}{'ull' if value >= 2**31 else ''}"

    def place(self):
        """Returns what may be written: a variable, an element, a part of a record."""
        index = f"({self.draw.choice(self.names)} & {ELEMENTS - 1})"
        record = self.draw.choice(("records[0]", "records[1]", f"records[{index} & 1]", "records[0].next->next[0]"))
        return self.draw.choice((*self.names, f"bytes[{index}]", f"numbers[{index}]", f"{record}.narrow", f"{record}.signed_part", f"{record}.first",
                                 f"{record}.second[{index} % 3]"))

    def value(self, depth):
        """Returns an expression."""
        draw = self.draw
        if depth == 0 or draw.random() < 0.15:
            return draw.choice((self.number(), self.place(), self.place()))
        one, other, kind = self.value(depth - 1), self.value(depth - 1), draw.choice(TYPES)
        word = draw.choice(("unsigned", "unsigned long long"))
        return draw.choice((
            f"(({word}) {one} {draw.choice('+-*&|^')} ({word}) {other})",
            f"(({word}) {one} {draw.choice('+-*')} ({word}) {other})",
            f"(({word}) {one} << ({other} & {31 if word == 'unsigned' else 63}))",
            f"((int) {one} >> ({other} & 31))", f"((long long) {one} >> ({other} & 63))", f"((unsigned) {one} >> ({other} & 31))",
            f"({kind}) {one}", f"(~{one})", f"(!{one})", f"({one} {draw.choice(('<', '<=', '==', '!=', '>', '>='))} {other})",
            f"({one} {draw.choice(('&&', '||'))} {other})", f"({one} ? {other} : ({kind}) {one})",
            f"{draw.choice(('divide', 'rest', 'divide_word', 'rest_word'))}({one}, {other})",
            f"((double) (int) {one} {draw.choice(('<', '+', '*', '>='))} (double) (short) {other} > fraction)",
        ))

    def assignment(self, pad):
        """Returns a statement that writes."""
        to, draw = self.place(), self.draw
        kind = draw.randrange(8)
        if kind == 0:
            return [f"{pad}fraction = (double) (int) {self.value(1)} {draw.choice('+-*')} (double) (short) {self.value(1)};"]
        if kind == 1:
            return [f"{pad}add({self.value(2)});"]
        if kind == 2 and self.functions:
            called = draw.randrange(self.functions)
            return [f"{pad}{to} = function_{called}({self.value(1)}, {self.value(1)}, &bytes[{self.draw.randrange(ELEMENTS)}]);"]
        if kind == 3:
            return [f"{pad}{to} {draw.choice(('|=', '&=', '^='))} {self.value(2)};"]
        return [f"{pad}{to} = {self.value(3)};"]

    def block(self, pad, depth):
        """Returns the lines of one to four statements."""
        return [line for _ in range(self.draw.randrange(1, 5)) for line in self.statement(pad, depth)]

    def statement(self, pad, depth):
        """Returns the lines of a statement."""
        draw, more = self.draw, pad + "    "
        kind = draw.randrange(8) if depth else 7
        if kind == 0:
            return [f"{pad}if ({self.value(2)}) {{", *self.block(more, depth - 1), f"{pad}}} else {{", *self.block(more, depth - 1), f"{pad}}}"]
        if kind == 1:
            self.loops += 1
            name = f"i{self.loops}"
            head = f"{pad}for (int {name} = 0; {name} < {draw.randrange(1, 9)}; {name}++) {{"
            return [head, f"{more}numbers[{name} % {ELEMENTS}] ^= {name};", *self.block(more, depth - 1), f"{pad}}}"]
        if kind == 2:
            cases = [line for it in range(draw.randrange(2, 7))
                     for line in (f"{pad}case {it}:", *self.block(more, depth - 1), *([f"{more}break;"] if draw.random() < 0.8 else []))]
            return [f"{pad}switch ({self.value(2)} & 7) {{", *cases, f"{pad}default:", *self.assignment(more), f"{pad}}}"]
        if kind == 3:
            return [f"{pad}for (unsigned char *at = bytes; at < bytes + {ELEMENTS}; at += {draw.randrange(1, 4)})", f"{more}*at += {self.value(2)};"]
        return self.assignment(pad)

    def function(self):
        """Returns the lines of a function, which calls only those before it."""
        draw, number = self.draw, self.functions
        self.names = ["x", "y", "z", "*at"]
        head = f"static {draw.choice(TYPES)} function_{number}({draw.choice(TYPES)} x, {draw.choice(TYPES)} y, unsigned char *at) {{"
        lines = [head, f"    {draw.choice(TYPES)} z = {self.number()};", "    if (left-- <= 0)", "        return y;"]
        lines += [line for _ in range(draw.randrange(2, 6)) for line in self.statement("    ", 2)]
        self.functions += 1
        return ["", *lines, f"    return {self.value(2)};", "}"]


def program(seed):
    """Returns the text of the program with this seed."""
    it = Program(seed)
    head = HEAD.format(it.draw.choice(TYPES), it.draw.choice(TYPES), CALLS, "unsigned char", ELEMENTS, it.draw.choice(TYPES))
    lines = [line for _ in range(FUNCTIONS) for line in it.function()]
    calls = [f"    add(function_{number}({it.number()}, {it.number()}, &bytes[{number}]));" for number in range(FUNCTIONS)]
    return head + "\n".join(lines) + "\n" + TAIL.format("\n".join(calls), ELEMENTS)


def main():
    if len(sys.argv) != 2 or not sys.argv[1].isdigit():
        print("usage: checks/random_c.py SEED", file=sys.stderr)
        return 2
    sys.stdout.write(program(int(sys.argv[1])))
    return 0


if __name__ == "__main__":
    sys.exit(main())
