#!/usr/bin/env python3
"""Writes the table of good and broken lines that relines is run on: crates/relines/stdin and crates/relines/stdout.

What is expected comes from the pattern below, which shares nothing with the program."""
import os
import re

COUNT = rb"(?:0|[1-9][0-9]{0,8})"
FORMS = [
    rb"S\tC\t[CP]\tC",
    rb"N\tC\t(?:-|C)\t(?:-|C)",
    rb"U\tC\t(?:[COL]\tC|[HR])",
    rb"O\tC\t[BS]\t(?:M|C)\tC\t[DI]",
    rb"Q\tC\tC\t[BS]\tC\tC",
    rb"E\tC\tC",
    rb"X\tC",
    rb"T\tC",
    rb"W\tC\t(?:-|C)\tC\tC",
]


def pattern(form):
    """A form with each field that is C alone as a count."""
    return re.sub(rb"(?<=\\t)C(?=\\t|$)|(?<=\|)C(?=\))|(?<=\\t)C(?=\|)", lambda _: COUNT, form)


LINE = re.compile(b"(?:" + b"|".join(pattern(f) for f in FORMS) + b")\n")

GOOD = """S 0 C 5000|S 15 P 10000000|S 999999999 C 0|N 0 75 175|N 0 - 175|N 0 75 -|N 63 - -|N 0 999999999 0
U 0 C 5000|U 0 O 5000|U 0 L 4999|U 0 H|U 15 R|U 0 C 0|U 999999999 L 999999999
O 0 S M 10 D|O 0 B 130 4 I|O 0 B M 999999 I|O 999999999 S 999999999 999999999 D|O 0 S 0 0 D
Q 3 0 B 130 4|Q 999999999 999999999 S 999999999 999999999|Q 0 0 S 0 0
E 3 0|E 999999999 999999999|X 1|X 0|X 999999999|T 1000|T 0|T 999999999
W 0 - 1 2|W 0 25 1 2|W 999999999 999999999 999999999 999999999|W 1 1000 15 0""".replace("\n", "|").split("|")

# each with spaces for tabs, unless it holds a backslash: then it is taken as it stands
BROKEN = [
    # no letter, a letter alone, an unknown letter, a small letter, two letters
    r"\n", r"\t\n", r"S\n", r"S\t\n", r"T\n", r"T\t\n", r"A\t1\n", r"t\t1\n", r"TT\t1\n", r"P\t1\n", r"X1\n", r"1\tX\n",
    # carriage returns, spaces, signs, no tab
    r"T\t1\r\n", r"T\r\t1\n", r"\r\n", r"T 1\n", r"T\t 1\n", r"T\t1 \n", r" T\t1\n", r"T\t+1\n", r"T\t-1\n", r"T\t-\n", r"T\t1.0\n", r"T\t1,0\n", r"T\t0x1\n", r"T\t1e3\n",
    # empty fields, two tabs, a tab at the end
    r"S\t\tC\t1\n", r"S\t0\t\t1\n", r"S\t0\tC\t\n", r"T\t\t1\n", r"T\t1\t\n", r"N\t0\t\t1\n", r"N\t0\t1\t\n", r"O\t0\tS\tM\t10\t\n", r"O\t0\tS\t\t10\tD\n", r"W\t0\t\t1\t2\n", r"U\t0\t\n", r"U\t0\tC\t\n",
    # a field missing, a field too many
    r"S\t0\tC\n", r"S\t0\tC\t1\t1\n", r"S\tC\t1\n", r"N\t0\t1\n", r"N\t0\t1\t2\t3\n", r"O\t0\tS\tM\t10\n", r"O\t0\tS\tM\t10\tD\tD\n", r"O\t0\tS\t10\tD\n", r"Q\t3\t0\tB\t130\n", r"Q\t3\t0\tB\t130\t4\t5\n", r"Q\t3\t0\t130\t4\n", r"E\t3\n", r"E\t3\t0\t0\n", r"X\t1\t1\n", r"W\t0\t-\t1\n", r"W\t0\t-\t1\t2\t3\n", r"U\t0\n", r"U\t0\tH\t1\n", r"U\t0\tR\t\n", r"U\t0\tC\n", r"U\t0\tO\t1\t2\n",
    # ten digits, leading zeros
    r"T\t1000000000\n", r"T\t4294967296\n", r"T\t4294967297\n", r"T\t18446744073709551617\n", r"T\t01\n", r"T\t00\n", r"T\t0000000000\n", r"T\t000000001\n", r"S\t00\tC\t1\n", r"S\t0\tC\t01\n", r"N\t0\t01\t1\n", r"N\t0\t1\t01\n", r"N\t0\t1000000000\t1\n", r"N\t0\t1\t1000000000\n", r"O\t0\tB\t01\t1\tD\n", r"Q\t0\t0\tB\t1\t1000000000\n", r"W\t0\t1000000000\t1\t2\n", r"U\t0\tL\t1000000000\n",
    # a letter that the field has not
    r"S\t0\tB\t1\n", r"S\t0\tc\t1\n", r"O\t0\tX\tM\t1\tD\n", r"O\t0\tb\tM\t1\tD\n", r"O\t0\tB\t-\t1\tD\n", r"O\t0\tB\tMM\t1\tD\n", r"O\t0\tB\tM\t1\tI\tD\n", r"O\t0\tB\tM\t1\tG\n", r"O\t0\tB\tM\tM\tD\n", r"Q\t3\t0\tB\tM\t4\n", r"Q\t3\t0\tB\t-\t4\n", r"U\t0\tX\t1\n", r"U\t0\tX\n", r"U\t-\tH\n", r"W\t0\tM\t1\t2\n", r"W\t0\t-\t-\t2\n", r"N\t-\t1\t2\n", r"N\t0\tM\t1\n", r"N\t0\t--\t1\n", r"X\t-\n", r"S\t0\tCP\t1\n", r"U\t0\tHR\n",
    # bytes after the last field, NUL, bytes above 127
    r"T\t1x\n", r"T\t1\x00\n", r"T\x00\t1\n", r"\x00\n", r"\x00T\t1\n", r"T\t\x001\n", r"T\t1\xff\n", r"\xd4\t1\n", r"T\t\xb1\n", r"T\t1\x80\n", r"O\t0\tB\tM\t1\tD\xc3\xa9\n", r"\xef\xbb\xbfT\t1\n", r"T\t/\n", r"T\t:\n", r"T\x091\x0b\n", r"T\t1\x0c\n",
]


def unescape(text):
    return text.encode("ascii").decode("unicode_escape").encode("latin-1")


def table():
    lines = [g.replace(" ", "\t").encode() + b"\n" for g in GOOD]
    lines += [unescape(b) for b in BROKEN]
    # 79, 80, 81 and 82 bytes, and many more; a good line after each
    for size in (79, 80, 81, 82, 160, 161, 70000, 131072):
        lines.append(b"T\t" + b"1" * (size - 3) + b"\n")
        lines.append(b"X\t%d\n" % size)
    # a line that would be good were its first bytes passed over, and one that would be good were its last
    lines.append(b"1" * 80 + b"T\t1\n")
    lines.append(b"T\t1\t" + b"1" * 80 + b"\n")
    lines.append(b"X\t7\n")
    return lines


def answer(line):
    return line if len(line) <= 80 and LINE.fullmatch(line) else b"shape\n"


def main():
    here = os.path.join(os.path.dirname(os.path.abspath(__file__)), "..", "..", "crates", "relines")
    lines = table()
    assert all(l.count(b"\n") == 1 and l.endswith(b"\n") for l in lines)
    good = [g.replace(" ", "\t").encode() + b"\n" for g in GOOD]
    assert all(answer(g) == g for g in good)
    assert all(answer(unescape(b)) == b"shape\n" for b in BROKEN)
    # the last line has no newline: it is good but for that
    unended = b"T\t1000"
    with open(os.path.join(here, "stdin"), "wb") as f:
        f.write(b"".join(lines) + unended)
    with open(os.path.join(here, "stdout"), "wb") as f:
        f.write(b"".join(answer(l) for l in lines) + b"shape\n")


main()
