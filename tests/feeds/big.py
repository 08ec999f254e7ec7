#!/usr/bin/env python3
"""Feeds that are too long to keep: the bounds of the market.

    big.py                  the names of the feeds, one a line, each with what it shows
    big.py NAME in          the feed
    big.py NAME out         what guardlog prints for it

The expected lines are written down beside each line of a feed, by closed formulas over the line's place; nothing here keeps a book,
a clock or a listing. A feed is a sequence of pairs: a line, and the lines that answer it. Tabs are written as spaces here.
"""
import sys

TAKEN = "a 0 0 taken"


def given(number):
    """the answer to an admitted order or quote"""
    return f"a 0 {number} taken"


def series():
    """64 series, the 65th, and a series after another letter"""
    for s in range(64):
        yield f"S {s % 16} {'CP'[s % 2]} {s + 1}", [TAKEN]
    yield "S 0 C 1", ["a 15 0 late"]
    yield "S 16 C 1", ["a 3 0 name"]
    yield "S 0 C 0", ["a 4 0 price"]
    yield "S 16 C 0", ["a 3 0 name"]
    yield "N 63 1 2", [TAKEN]
    yield "N 64 1 2", ["a 3 0 name"]
    yield "S 0 C 1", ["a 15 0 late"]
    yield "W 63 40 0 15", [TAKEN]
    yield "W 64 40 0 15", ["a 3 0 name"]
    # series 63 is a put with strike 64
    yield "Q 0 63 B 64 1", ["a 22 0 benchmark"]
    yield "Q 1 63 B 63 1", [given(1)]


def full():
    """256 rows: who is refused and who is not, places used again, and 256 trades in one call"""
    yield "S 0 C 5000", [TAKEN]
    # 255 plain bids, number i at price i, and one quote, number 256 at price 256
    for i in range(1, 256):
        yield f"O 0 B {i} 1 D", [given(i)]
    yield "Q 3 0 B 256 1", [given(256)]
    yield "O 0 B 1 1 D", ["a 12 0 full"]
    # it would trade at once; a day order is refused all the same
    yield "O 0 S 1 1 D", ["a 12 0 full"]
    yield "Q 4 0 B 1 1", ["a 12 0 full"]
    # the maker's own quote is on the other side, so it would not be replaced
    yield "Q 3 0 S 300 1", ["a 12 0 full"]
    # full is tested after the size, and before a market order's two sides and before the screens
    yield "O 0 B 1 0 D", ["a 5 0 size"]
    yield "N 0 - 100", [TAKEN]
    yield "O 0 B M 1 D", ["a 12 0 full"]
    yield "O 0 B M 1 I", ["a 13 0 nomarket"]
    yield "O 0 B 200 1 D", ["a 12 0 full"]
    yield "O 0 B 200 1 I", ["a 21 0 through"]
    yield "Q 4 0 B 200 1", ["a 12 0 full"]
    yield "N 0 - -", [TAKEN]
    # the quote that it replaces is not counted
    yield "Q 3 0 B 257 1", ["w 256 1", given(257)]
    # an immediate order needs no place
    yield "O 0 S 258 5 I", ["w 258 5", given(258)]
    yield "O 0 S 257 1 I", ["t 0 257 1 259 257", given(259)]
    # the freed place is used again, once
    yield "O 0 B 300 1 D", [given(260)]
    yield "O 0 B 1 1 D", ["a 12 0 full"]
    yield "X 1", ["w 1 1", TAKEN]
    yield "O 0 B 1 1 D", [given(261)]
    yield "O 0 B 1 1 D", ["a 12 0 full"]
    # all 256 rows in one call: 300, then 255 down to 2, then the bid at 1
    sweep = ["t 0 300 1 262 260"] + [f"t 0 {p} 1 262 {p}" for p in range(255, 1, -1)] + ["t 0 1 1 262 261"]
    yield "O 0 S 1 256 I", sweep + [given(262)]
    yield "O 0 S 1 2 I", ["w 263 2", given(263)]
    yield "O 0 B 7 1 D", [given(264)]
    yield "X 264", ["w 264 1", TAKEN]


def pulled():
    """128 quotes of one maker withdrawn in one call, by number"""
    for _ in range(64):
        yield "S 0 C 5000", [TAKEN]
    yield "U 0 O 5000", [TAKEN]
    # maker 3's quotes from the last series to the first: the k-th pair has the numbers 2k + 1 and 2k + 2
    for k in range(64):
        yield f"Q 3 {63 - k} B 100 {k + 1}", [given(2 * k + 1)]
        yield f"Q 3 {63 - k} S 200 {k + 1}", [given(2 * k + 2)]
    # maker 4's stay
    for s in range(64):
        yield f"Q 4 {s} B 99 1", [given(129 + s)]
    yield "Q 3 63 B 5000 1", [f"w {n} {(n + 1) // 2}" for n in range(1, 129)] + ["a 22 0 benchmark"]
    yield "Q 3 0 S 200 1", ["a 14 0 shut"]
    for s in range(64):
        yield f"X {129 + s}", [f"w {129 + s} 1", TAKEN]
    yield "E 3 0", [TAKEN]
    yield "Q 3 0 S 200 1", [given(193)]


def held():
    """256 held orders in 64 series, all of them moved by one T"""
    for _ in range(64):
        yield "S 0 C 5000", [TAKEN]
    for s in range(64):
        yield f"N {s} 75 175", [TAKEN]
    # each displays 150 and is due at 1,000; the k-th of series s has the number 64k + s + 1
    for k in range(4):
        for s in range(64):
            yield f"O {s} S M 1 D", [given(64 * k + s + 1)]
    yield "O 0 S M 1 D", ["a 12 0 full"]
    yield "T 999", [TAKEN]
    yield "T 1", [TAKEN]
    # all of them display 125
    for s in range(64):
        yield f"O {s} B 149 4 I", [f"t {s} 125 1 {257 + s} {64 * k + s + 1}" for k in range(4)] + [given(257 + s)]


def served():
    """one T in which a held order takes 255 rows"""
    yield "S 0 C 5000", [TAKEN]
    yield "N 0 75 175", [TAKEN]
    yield "O 0 S M 300 D", [given(1)]
    # 255 bids below its reach of 125: the number n at 100 + n mod 25
    price = {n: 100 + n % 25 for n in range(2, 257)}
    for n in price:
        yield f"O 0 B {price[n]} 1 D", [given(n)]
    yield "O 0 B 1 1 D", ["a 12 0 full"]
    # it displays 125 and reaches 100: the best price first, then the lowest number
    trades = [f"t 0 {p} 1 1 {n}" for p in range(124, 99, -1) for n in price if price[n] == p]
    yield "T 1000", trades + [TAKEN]
    yield "O 0 B M 1 I", ["t 0 125 1 257 1", given(257)]
    yield "X 1", ["w 1 44", TAKEN]


def spent():
    """the number 999,999, and what is refused after it"""
    yield "S 0 C 5000", [TAKEN]
    for n in range(1, 999_999):
        yield "O 0 B 1 1 I", [f"w {n} 1", given(n)]
    yield "Q 3 0 B 1 1", [given(999_999)]
    yield "O 0 B 1 1 I", ["a 11 0 spent"]
    yield "O 0 B 1 1 D", ["a 11 0 spent"]
    # tested after 3, 4 and 5, and before 13 and the screens
    yield "O 1 B 1 1 D", ["a 3 0 name"]
    yield "O 0 B 0 1 D", ["a 4 0 price"]
    yield "O 0 B 1 0 D", ["a 5 0 size"]
    yield "O 0 B M 1 D", ["a 11 0 spent"]
    yield "N 0 - 100", [TAKEN]
    yield "O 0 B 200 1 D", ["a 11 0 spent"]
    # the older quote stays
    yield "Q 3 0 B 200 1", ["a 11 0 spent"]
    yield "X 999999", ["w 999999 1", TAKEN]
    yield "Q 3 0 B 1 1", ["a 11 0 spent"]
    yield "T 1000", [TAKEN]
    yield "E 3 0", [TAKEN]


def moments():
    """the moment 100,000,000, and an order that is due then"""
    yield "S 0 C 5000", [TAKEN]
    yield "N 0 75 175", [TAKEN]
    for _ in range(99_999):
        yield "T 1000", [TAKEN]
    # the clock is at 99,999,000; it displays 150 and is due at 100,000,000
    yield "O 0 S M 10 D", [given(1)]
    yield "T 999", [TAKEN]
    yield "T 2", ["a 7 0 clock"]
    yield "O 0 B 149 1 I", ["w 2 1", given(2)]
    yield "T 1", [TAKEN]
    yield "O 0 B 149 1 I", ["t 0 125 1 3 1", given(3)]
    # it is due at 100,001,000, which never comes
    yield "T 1", ["a 7 0 clock"]
    yield "T 1000", ["a 7 0 clock"]
    yield "T 1001", ["a 7 0 clock"]
    yield "T 0", [TAKEN]
    yield "O 0 B 149 1 I", ["t 0 125 1 4 1", given(4)]
    # all else goes on: it reaches 100
    yield "Q 3 0 B 110 2", ["t 0 110 2 1 5", given(5)]
    yield "O 0 B 149 1 I", ["t 0 125 1 6 1", given(6)]
    yield "X 1", ["w 1 5", TAKEN]


FEEDS = {f.__name__: f for f in (series, full, pulled, held, served, spent, moments)}


def main(args):
    if not args:
        for name, feed in FEEDS.items():
            print(f"{name}: {feed.__doc__}")
        return 0
    if len(args) != 2 or args[0] not in FEEDS or args[1] not in ("in", "out"):
        print(__doc__, file=sys.stderr)
        return 2
    write = sys.stdout.write
    for line, answers in FEEDS[args[0]]():
        for text in [line] if args[1] == "in" else answers:
            write(text.replace(" ", "\t") + "\n")
    return 0


if __name__ == "__main__":
    sys.exit(main(sys.argv[1:]))
