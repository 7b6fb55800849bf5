#!/usr/bin/env python3
"""hostile_texts.py PROGRAM [--all]: runs the program on sources and inputs that were made to break it.

Texts with zero bytes, bytes that are no UTF-8, a byte order mark, carriage returns, tabs, signs and leading zeros; every front of short sources and inputs; each byte there
is at places of a source and of an input; and inputs and sources that are put together from such pieces by a generator with a fixed seed. What is due stands in the tables
below, worked out from the language by hand, or is worked out by `readings.py`. A source that has a tree may be answered in any way that the language names.
Prints for each part how many texts there were, what they ended in, and each that ended otherwise. Without --all every part but the tables takes each 7th text alone.
"""
import concurrent.futures
import os
import random
import re
import sys

import plain_runs
import readings

SAME = b"int[*] main(int[*] a) { return (a); }"
TRUTHS = b"bool[*] main(bool[*] a) { return (a); }"
MARK = b"\xef\xbb\xbf"

# A source, and what it is answered with. It gives 14 where it is read as row upon row of tokens as the first one.
SOURCES = [
    (b"int main() { return (2 + 3 * 4); }", "int[]: 14\n", 0),
    (b"int\tmain()\t{\treturn\t(2\t+\t3\t*\t4);\t}\t", "int[]: 14\n", 0),
    (b"int main()\r\n{ return (2 +\r\n3 * 4);\r\n}\r\n", "int[]: 14\n", 0),
    (b"int main() { return (2 + 3 * 4); }\r", "int[]: 14\n", 0),
    (b"int\rmain() { return (1 / 0); }", "fault F2 at 1:24\n", 1),
    (b"int main() {\r\n\treturn (1 / 0); }", "fault F2 at 2:12\n", 1),
    (b"int main() {\n\r return (1 / 0); }", "fault F2 at 2:13\n", 1),
    (MARK + b"int main() { return (1); }", "refused L1 at 1:1\n", 2),
    (b"\xff\xfei\x00n\x00t\x00", "refused L1 at 1:1\n", 2),
    (b"int main() { return (1); }" + MARK, "refused L1 at 1:27\n", 2),
    (b"int main() { return (1); }\x00", "refused L1 at 1:27\n", 2),
    (b"int main() { return (1); }\x1a", "refused L1 at 1:27\n", 2),
    (b"int ma\x00in() { return (1); }", "refused L1 at 1:7\n", 2),
    (b"int main() { return (1\x002); }", "refused L1 at 1:23\n", 2),
    (b"int main() { return (1\xa02); }", "refused L1 at 1:23\n", 2),
    (b"int main() { return (1\xe2\x80\xa82); }", "refused L1 at 1:23\n", 2),
    (b"int main() { caf\xc3\xa9 = 1; return (1); }", "refused L1 at 1:17\n", 2),
    (b"int main() { return (\xd9\xa1); }", "refused L1 at 1:22\n", 2),
    (b"/* \x00\xff\xc3( \xed\xa0\x80 */ int main() { return (1 / 0); }", "fault F2 at 1:39\n", 1),
    (b"// \x00\xff\r\nint main() { return (1 / 0); } // \xf4\x90\x80\x80", "fault F2 at 2:24\n", 1),
    (b"// int main() { return (1 / 0); }\rint main() { return (1); }", "refused C7 at 1:61\n", 2),
    (b"/*/ int main() { return (1); }", "refused L5 at 1:1\n", 2),
    (b"/**/int main() { return (1/**/+/***/1); }/* * / **/", "int[]: 2\n", 0),
    (b"int main() { return (2147483647); }", "int[]: 2147483647\n", 0),
    (b"int main() { return (2147483648); }", "refused L2 at 1:22\n", 2),
    (b"int main() { return (-2147483648); }", "refused L2 at 1:23\n", 2),
    (b"int main() { return (-2147483647 - 1); }", "int[]: -2147483648\n", 0),
    (b"int main() { return (000000000000000000000000000000002147483647); }", "int[]: 2147483647\n", 0),
    (b"int main() { return (00000000000000000000000000000000); }", "int[]: 0\n", 0),
    (b"int main() { return (4294967297); }", "refused L2 at 1:22\n", 2),
    (b"int main() { return (18446744073709551617); }", "refused L2 at 1:22\n", 2),
    (b"int main() { return (340282366920938463463374607431768211457); }", "refused L2 at 1:22\n", 2),
    (b"int main() { return (+1); }", "refused P1 at 1:22\n", 2),
    (b"int main() { return (- -1); }", "int[]: 1\n", 0),
    (b"int main() { return (--1); }", "refused P1 at 1:22\n", 2),
    (b"int main() { return (1 - -1); }", "int[]: 2\n", 0),
    (b"int main() { return (1--1); }", "refused P1 at 1:23\n", 2),
    (b"int main() { return (1-+1); }", "refused P1 at 1:24\n", 2),
    (b"int main() { return (0x10); }", "refused P1 at 1:23\n", 2),
    (b"int main() { return (1e3); }", "refused P1 at 1:23\n", 2),
    (b"int main() { return (1.5); }", "refused P1 at 1:23\n", 2),
    (b"int main() { return (1_000); }", "refused P1 at 1:23\n", 2),
    (b"int main() { return ('a'); }", "refused L1 at 1:22\n", 2),
    (b"int main() { return (1 & 1); }", "refused L1 at 1:24\n", 2),
    (b"int main() { return (1 &&& 1); }", "refused L1 at 1:26\n", 2),
    (b"int main() { x = 1; x =+ 1; return (x); }", "refused P1 at 1:24\n", 2),
    (b"int main() { x = 1; x+++; return (x); }", "refused P1 at 1:24\n", 2),
    (b"Int main() { return (1); }", "refused P1 at 1:1\n", 2),
    (b"", "refused C7 at 1:1\n", 2),
    (b"\r\n\t \r", "refused C7 at 2:4\n", 2),
    (b"\n\n\n", "refused C7 at 4:1\n", 2),
    (b"// no end of a line", "refused C7 at 1:20\n", 2),
]

# An input of `SAME`, and what it is answered with.
INPUTS = [
    (b"int[2]: 1 2", "int[2]: 1 2\n", 0),
    (b"int[2]: 1 2\r\n", "int[2]: 1 2\n", 0),
    (b"int[2]: 1 2\r", "int[2]: 1 2\n", 0),
    (b"int[2]: 1 2\r\r\n", "refused I1 at line 1\n", 3),
    (b"\r\n\r\n\t \r\nint[2]: 1 2", "int[2]: 1 2\n", 0),
    (b"\r\r\nint[2]: 1 2", "refused I2\n", 3),
    (b"\n\n\nint[2]: 1 x", "refused I1 at line 4\n", 3),
    (b"\tint\t[\t2\t]\t:\t1\t2\t", "int[2]: 1 2\n", 0),
    (b"int [ 2 , 1 ] : 1 2", "int[2,1]: 1 2\n", 0),
    (b"int[2]:1 2", "int[2]: 1 2\n", 0),
    (b"int[2]: 1\x0b2", "refused I1 at line 1\n", 3),
    (b"int[2]: 1\x0c2", "refused I1 at line 1\n", 3),
    (b"int[2]: 1\x002", "refused I1 at line 1\n", 3),
    (b"int[2]: 1\xa02", "refused I1 at line 1\n", 3),
    (b"int[2]: 1 2\x00", "refused I1 at line 1\n", 3),
    (b"int[2]: 1 2\x1a", "refused I1 at line 1\n", 3),
    (b"\x00", "refused I1 at line 1\n", 3),
    (b"int[2]: 1 2\n\x00", "refused I2\n", 3),
    (MARK + b"int[2]: 1 2", "refused I1 at line 1\n", 3),
    (MARK + b"\nint[2]: 1 2", "refused I2\n", 3),
    (b"i\x00n\x00t\x00", "refused I1 at line 1\n", 3),
    (b"int[2]: 1 \xd9\xa1", "refused I1 at line 1\n", 3),
    (b"int[2]: 1 \xff", "refused I1 at line 1\n", 3),
    (b"int[2]: +1 2", "refused I1 at line 1\n", 3),
    (b"int[2]: - 1 2", "refused I1 at line 1\n", 3),
    (b"int[2]: --1 2", "refused I1 at line 1\n", 3),
    (b"int[2]: 1-2", "refused I1 at line 1\n", 3),
    (b"int[2]: 1- 2", "refused I1 at line 1\n", 3),
    (b"int[2]: 1 -", "refused I1 at line 1\n", 3),
    (b"int[2]: -0 -000", "int[2]: 0 0\n", 0),
    (b"int[2]: 007 -007", "int[2]: 7 -7\n", 0),
    (b"int[002]: 1 2", "int[2]: 1 2\n", 0),
    (b"int[+2]: 1 2", "refused I1 at line 1\n", 3),
    (b"int[-2]: 1 2", "refused I1 at line 1\n", 3),
    (b"int[-0]:", "refused I1 at line 1\n", 3),
    (b"int[*]: 1 2", "refused I1 at line 1\n", 3),
    (b"int[.]: 1 2", "refused I1 at line 1\n", 3),
    (b"int: 5", "refused I1 at line 1\n", 3),
    (b"int[]: 5", "int[]: 5\n", 0),
    (b"int[ ]: 5", "int[]: 5\n", 0),
    (b"int[]:", "refused I4 at line 1\n", 3),
    (b"int[]: 5 6", "refused I4 at line 1\n", 3),
    (b"int[0]:", "int[0]:\n", 0),
    (b"int[0]: ", "int[0]:\n", 0),
    (b"int[0,2147483647]:", "int[0,2147483647]:\n", 0),
    (b"int[2147483647,2147483647,0]:", "int[2147483647,2147483647,0]:\n", 0),
    (b"int[0,2147483648]:", "refused I3 at line 1\n", 3),
    (b"int[0,000000000000000000002147483647]:", "int[0,2147483647]:\n", 0),
    (b"int[2,]: 1 2", "refused I1 at line 1\n", 3),
    (b"int[,2]: 1 2", "refused I1 at line 1\n", 3),
    (b"int[2;1]: 1 2", "refused I1 at line 1\n", 3),
    (b"int[1 2]: 1 2", "refused I1 at line 1\n", 3),
    (b"int[2]; 1 2", "refused I1 at line 1\n", 3),
    (b"int[2]: 1, 2", "refused I1 at line 1\n", 3),
    (b"int[2]: 1 2.0", "refused I1 at line 1\n", 3),
    (b"int[2]: 0x1 2", "refused I1 at line 1\n", 3),
    (b"INT[2]: 1 2", "refused I1 at line 1\n", 3),
    (b"in t[2]: 1 2", "refused I1 at line 1\n", 3),
    (b"integer[2]: 1 2", "refused I1 at line 1\n", 3),
    (b"int[2]: 2147483647 -2147483648", "int[2]: 2147483647 -2147483648\n", 0),
    (b"int[2]: 2147483648 1", "refused I3 at line 1\n", 3),
    (b"int[2]: -2147483649 1", "refused I3 at line 1\n", 3),
    (b"int[1]: 4294967296", "refused I3 at line 1\n", 3),
    (b"int[1]: -18446744073709551616", "refused I3 at line 1\n", 3),
    (b"int[4294967297]: 1", "refused I3 at line 1\n", 3),
    (b"int[18446744073709551617]: 1", "refused I3 at line 1\n", 3),
    (b"int[2]: 2147483648 x", "refused I1 at line 1\n", 3),
    (b"int[3]: 2147483648", "refused I3 at line 1\n", 3),
    (b"int[1,1,1,1,1,1,1,1]: 1", "int[1,1,1,1,1,1,1,1]: 1\n", 0),
    (b"int[1,1,1,1,1,1,1,1,1]: 1", "refused I6 at line 1\n", 3),
    (b"int[1,1,1,1,1,1,1,1,0]: 1", "refused I6 at line 1\n", 3),
    (b"int[1,1,1,1,1,1,1,1,2147483648]: 1", "refused I3 at line 1\n", 3),
    (b"bool[1]: true", "refused I5 at line 1\n", 3),
    (b"bool[2]: true", "refused I4 at line 1\n", 3),
    (b"bool[1]: 1", "refused I1 at line 1\n", 3),
    (b"int[1]: true", "refused I1 at line 1\n", 3),
    (b"bool[1]: TRUE", "refused I1 at line 1\n", 3),
    (b"bool[2]: truefalse", "refused I1 at line 1\n", 3),
    (b"bool[1]: -true", "refused I1 at line 1\n", 3),
    (b"", "refused I2\n", 3),
    (b"\r\n", "refused I2\n", 3),
    (b"int[1]: 1\nint[1]: 1", "refused I2\n", 3),
    (b"int[1]: 1\nx", "refused I2\n", 3),
    (b"int[1]: 1\rint[1]: 1", "refused I1 at line 1\n", 3),
    (b"int[\n1]: 1", "refused I2\n", 3),
]

# Short sources with each kind of statement, with-loop and expression, whose fronts are taken.
WHOLE = [
    b"int f(int[3,7] a, bool[.,.] b, int[+] c) { x, y = g(1); x[1, 2] += 3; return (x, -y); }",
    b"inline int[*], bool main() { a[0] = 1; if (true) { } else if (!a) { b++; } else { c--; } return (a, b); }",
    b"int m() { do { x %= 2; } while (x < 1); for (i = 0; i < 3; i++) { while (i >= 0 || a && b) { } } return (i ? [] : [1, 2]); }",
    b"int w() { return (with { (. <= iv < [9] step [4] width [2]) { x = 1; } : x; ([0] < [i, j] <= .) : i; } : genarray([9], 0)); }",
    b"int v() { return (min(1, max(2, 3)) + dim(a) % shape(b) * reshape(c, d)[0][1, 2] - (with { } : fold(&&, true))); }",
]
LINES = [b"int[2, 1]: -1 007\r\n \t\nint[]: 5\n", b"\tint [ 0 ] :\r\nint[1]: -2147483648", b"int[1,1]:1\n\nint[2]: 2147483647 -0\n"]
TWO = b"int[*], int[*] main(int[*] a, int[*] b) { return (a, b); }"

# What sources and inputs are put together from.
PIECES = [b"\x00", b"\r", b"\n", b"\r\n", b"\t", b" ", MARK, b"\xc3\xa9", b"\xff", b"\x0b", b"\xa0", b"/", b"*", b"//", b"/*", b"*/", b"&", b"|", b"-", b"+", b"=", b"<", b"(",
          b")", b"{", b"}", b"[", b"]", b";", b":", b",", b".", b"?", b"0", b"007", b"2147483647", b"2147483648", b"x", b"int", b"true", b"with", b"step", b"return", b"@"]
WORDS = [b"int", b"bool", b"[", b"]", b":", b",", b" ", b" ", b" ", b"\t", b"\r", b"\n", b"\r\n", b"1", b"2", b"0", b"-1", b"-0", b"007", b"2147483647", b"2147483648", b"-2147483648",
         b"-2147483649", b"4294967297", b"+1", b"true", b"false", b"-", b"\x00", b"\xff", b"\xc3\xa9", MARK, b"\x0b", b"int[1]: 5", b"int[2]: 1 2\n", b"bool[1]: true"]


def pieces(seed, count, words, whole):
    """Texts with one to three places each of which is replaced by a piece, or has one put in."""
    dice = random.Random(seed)
    for _ in range(count):
        text = dice.choice(whole)
        for _ in range(dice.randint(1, 3)):
            at = dice.randrange(len(text) + 1)
            text = text[:at] + dice.choice(words) + text[at + dice.randint(0, 2) :]
        yield text


def each_byte(text):
    """The text with each byte there is at each place that has another neighbour than the place before."""
    kinds = re.sub(rb"[A-Za-z_]", b"a", re.sub(rb"[0-9]", b"1", text))
    places = {(kinds[at - 1 : at], kinds[at : at + 1]): at for at in range(len(text) + 1)}
    return [text[:at] + bytes([byte]) + text[at:] for at in places.values() for byte in range(256)]


def fronts(text):
    return [text[:at] for at in range(len(text))]


def of_source(source):
    """What is due for a source: its refusal by tokens or grammar, or any answer."""
    refusal = readings.source_refusal(source)
    return (refusal, 2) if refusal else None


def of_input(text, bases):
    return readings.input_answer(text, bases)


def parts(every):
    """The parts by name: lists of a source, an input or None, and what is due, which is None where any answer will do."""
    yield "sources of the table", [(source, None, (text, status)) for source, text, status in SOURCES]
    yield "inputs of the table", [(SAME, given, (text, status)) for given, text, status in INPUTS]
    made = [source for whole in WHOLE for source in fronts(whole)]
    yield "fronts of sources", [(source, None, of_source(source)) for source in made][::every]
    yield "fronts of inputs", [(TWO, given, of_input(given, ["int", "int"])) for line in LINES for given in fronts(line)]
    made = each_byte(b"int f(int[3] a) { a += 12; return (-a); } // c\n")
    yield "a byte more in a source", [(source, None, of_source(source)) for source in made[::every]]
    made = each_byte(b"int[2, 1]: -1 007\r\n")
    yield "a byte more in an input", [(SAME, given, of_input(given, ["int"])) for given in made[::every]]
    made = [*pieces(1, 4_000, PIECES, WHOLE)]
    yield "pieces in sources", [(source, None, of_source(source)) for source in made[::every]]
    made = [*pieces(2, 4_000, WORDS, [*LINES, b"int[2]: 1 2", b"bool[2]: true false"])]
    yield "pieces in inputs", [(TWO, given, of_input(given, ["int", "int"])) for given in made[::every]]
    made = [*pieces(3, 2_000, WORDS, [b"bool[2]: true false", b"bool[]:true"])]
    yield "pieces in inputs of truth values", [(TRUTHS, given, of_input(given, ["bool"])) for given in made[::every]]


def judged(program, text):
    """A run of one text, and whether it ended as it may."""
    source, given, due = text
    answer = plain_runs.run(program, source, given)
    right = (answer.text, answer.status) == due if due else answer.has_a_form() and not answer.text.startswith(("refused L", "refused P1"))
    return answer, right


def main():
    words = [word for word in sys.argv[1:] if word != "--all"]
    program = os.path.abspath(words[0])
    lost = 0
    with concurrent.futures.ThreadPoolExecutor(4) as workers:
        for name, texts in parts(1 if "--all" in sys.argv else 7):
            ends, wrong = {}, []
            for text, (answer, right) in zip(texts, workers.map(lambda text: judged(program, text), texts)):
                ends[answer.status] = ends.get(answer.status, 0) + 1
                if not right:
                    wrong.append((text, answer))
            seen = ", ".join(f"{count} in status {status}" for status, count in sorted(ends.items(), key=str))
            print(f"{name}: {len(texts)} texts: {seen}; {len(wrong)} wrong", flush=True)
            for (source, given, due), answer in wrong[:5]:
                print(f"    {source!r}, {given!r}: {answer.shown()}, due {due}")
            lost += len(wrong)
    return 1 if lost else 0


if __name__ == "__main__":
    sys.exit(main())
