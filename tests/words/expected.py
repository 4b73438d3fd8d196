#!/usr/bin/env python3
"""What the program `signed` must print, from an independent reading of document 01, "Words", and Ticket 9: no code of the library is used.

Rewrite the stored output from the repository's root:   python3 tests/words/expected.py > crates/signed/stdout
The examples stand here in the order of crates/signed/src/main.rt. Each lends words that are 7: the signer fills them, high word first, or
leaves them.
"""
import re

LONGEST, MOST, WIDEST = 4096, 8, 512


def words(text):
    """The longest runs of bytes other than 32 and 10, each with where it starts."""
    return [(m.start(), m.group()) for m in re.finditer(rb"[^ \n]+", text)]


def positions(word, width, k):
    found = []
    for a, b, c in zip(word, word[1:], word[2:]):
        position = 1 + (961 * a + 31 * b + c) % width
        if position not in found:
            found.append(position)
    return found[:k]


def row(text, width, k):
    """The signature as a row of 0 and 1."""
    is_set = {p for _, word in words(text) for p in positions(word, width, k)}
    return "".join("1" if p in is_set else "0" for p in range(1, width + 1))


def in_words(bits):
    """A row in words of 64: what the first has no bits for is 0."""
    while len(bits) % 64 != 0:
        bits = "0" + bits
    return [int(bits[i:i + 64], 2) for i in range(0, len(bits), 64)]


def sign(text, width, k, lent):
    """The answer, and the lent words as they are left."""
    untouched = [7] * lent
    if not 1 <= width <= WIDEST or lent != len(in_words("0" * width)):
        return 4, untouched
    if len(text) > LONGEST:
        return 12, untouched
    if not 1 <= k <= MOST:
        return 13, untouched
    return 0, in_words(row(text, width, k))


def show(text, width, k, lent=1):
    answer, left = sign(text, width, k, lent)
    print(f"bytes {len(text)} width {width} k {k} lent {lent} answer {answer} signature", *left)


def covered(width, lent, k, block, queries):
    for text in (block, *queries):
        show(text, width, k, lent)
    rows = [row(text, width, k) for text in (block, *queries)]
    print("covers", *(int(all(s == "1" or q == "0" for s, q in zip(rows[0], query))) for query in rows[1:]))


def split(text, n):
    answer = 12 if len(text) > LONGEST else 0
    found = words(text) if answer == 0 else []
    start, word = found[n - 1] if 1 <= n <= len(found) else (len(text), b"")
    print(f"word {n} answer {answer} bytes {len(word)} [{word.decode()}] answer {answer} start {start} size {len(word)}")


long = bytes(i % 251 for i in range(4097))

# triplets
for text, width, k in [(b"pro", 12, 8), (b"rof", 12, 8), (b"prof", 12, 8), (b"prof", 12, 1), (b"of prof\nof", 12, 8),
                       (b"a", 12, 8), (b"ab", 12, 8), (b"abc", 12, 8)]:
    show(text, width, k)
# edges
for text, width, k in [(b"", 12, 8), (b"  \n \n", 12, 8), (b"aaaaaaaa", 12, 8), (b"aaaab", 12, 1), (b"aaaab", 12, 2),
                       (b"the quick brown fox", 1, 8), (b"the quick brown fox", 64, 8), (b"the quick brown fox", 64, 1)]:
    show(text, width, k)
show(long[:4096], 64, 8)
show(long[:4096], 12, 1)
# widths over 64
for width, lent in [(65, 2), (70, 2), (127, 2), (128, 2), (129, 3), (511, 8), (512, 8)]:
    show(b"the quick brown fox", width, 8, lent)
show(long[:4096], 70, 8, 2)
show(long[:4096], 512, 8, 8)
# 256 words
show(b"abcd" + b" x" * 254 + b" abcd", 512, 1, 8)
# refusals
for text, width, k, lent in [(b"prof", 0, 8, 0), (b"prof", 0, 8, 1), (b"prof", 513, 8, 8), (b"prof", 513, 8, 9), (b"prof", 64, 8, 0),
                             (b"prof", 64, 8, 2), (b"prof", 65, 8, 1), (b"prof", 65, 8, 3), (b"prof", 512, 8, 7), (b"prof", 12, 0, 1),
                             (b"prof", 70, 9, 2), (long, 64, 8, 1), (long, 0, 0, 1), (long, 64, 0, 1), (long, 70, 0, 1), (long, 70, 0, 2)]:
    show(text, width, k, lent)
covered(64, 1, 3, b"the quick brown fox\njumps", (b"fox the", b"lazy dog"))
covered(70, 2, 3, b"the quick brown fox\njumps", (b"fox the", b"lazy dog"))
# words
for n in range(5):
    split(b"  the quick\n\nfox\n", n)
split(b"last", 1)
split(b"", 1)
split(long, 1)
