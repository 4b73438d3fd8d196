#!/usr/bin/env python3
"""Feeds sigrun random streams in random pieces and holds its lines to the independent reading. On a failure it prints the shortest
list of slips that still fails."""
import os
import random
import subprocess
import sys

HERE = os.path.dirname(os.path.abspath(__file__))
ROOT = os.path.dirname(os.path.dirname(HERE))
sys.path.insert(0, os.path.join(ROOT, 'tests', 'reference'))
from sigtree_reference import Index, slip, slip_size, carry_out, serve  # noqa: E402

SIGRUN = os.path.join(ROOT, 'target', 'bin', 'sigrun')
BLOCKS = 1024
WIDTHS = (1, 3, 8, 33, 63, 64, 65, 70, 127, 128, 129, 300, 511, 512)


def random_slips(rng, index):
    """Slips as long as sigrun takes them, most of them for the store as it is; now and then a clear to another width, or to none."""
    pool = []
    for _ in range(rng.randrange(260)):
        width = index.width or 64
        if not pool: pool = [rng.getrandbits(width) for _ in range(rng.choice((2, 12, 80)))]
        kind = rng.choice((1, 1, 1, 1, 1, 1, 2, 2, 3, 4, 4, 4, 5, 255)) if rng.random() < 0.97 else rng.randrange(256)
        if rng.random() < 0.02: kind = 0
        to = rng.choice(WIDTHS) if rng.random() < 0.7 else rng.choice((0, 513, 2 ** 32 - 1))
        block = to if kind == 0 else rng.choice((1, 2, 3, 700, BLOCKS, rng.randint(1, BLOCKS))) if kind in (1, 2) else 0
        signature = rng.choice(pool) if kind in (1, 4) else 0
        if kind == 4 and rng.random() < 0.5: signature &= rng.getrandbits(width)
        data = bytearray(slip(kind, block, signature, width))
        if rng.random() < 0.08: data[rng.randrange(len(data))] = rng.randrange(256)
        data = (bytes(data) + bytes(72))[:slip_size(index, data[0])]
        carry_out(index, data)
        if index.width != width: pool = []
        yield data


def expected(stream):
    index = Index(BLOCKS)
    return ''.join(' '.join(map(str, line)) + '\n' for _, line in serve(index, stream)).encode()


def printed(stream, rng):
    p = subprocess.Popen([SIGRUN], stdin=subprocess.PIPE, stdout=subprocess.PIPE)
    if os.fork() == 0:
        p.stdout.close()
        at = 0
        while at < len(stream):
            n = rng.choice((1, 5, 15, 16, 17, 23, 24, 71, 72, 73, 100, 4000))
            os.write(p.stdin.fileno(), stream[at:at + n])
            at += n
        os._exit(0)
    p.stdin.close()
    out = p.stdout.read()
    p.wait()
    os.wait()
    return out


def prompt(width, cut):
    """A line appears when its slip is complete, while the pipe stays open, and not before."""
    filing = slip(1, 1, 5, width)
    p = subprocess.Popen([SIGRUN], stdin=subprocess.PIPE, stdout=subprocess.PIPE)
    os.write(p.stdin.fileno(), slip(0, width) + filing[:cut])
    first = os.read(p.stdout.fileno(), 1000)
    os.write(p.stdin.fileno(), filing[cut:])
    second = os.read(p.stdout.fileno(), 1000)
    p.stdin.close()
    rest = p.stdout.read()
    p.wait()
    return (first, second, rest) == (b'0 0 0 0 0\n', b'1 0 0 0 0\n', b'')


def short_ones():
    """A last slip of each kind cut to each length that another width would have, before the first clear and after one."""
    for width in (None, 64, 70):
        cleared = [slip(0, width)] if width else []
        for kind in range(6):
            for cut in (1, 8, 15, 16, 23): yield cleared + [slip(kind, 1 if kind < 3 else 0, width=width or 70)[:cut]]


def random_ones(rng):
    for _ in range(60):
        index, slips = Index(BLOCKS), []
        if rng.random() < 0.8: slips.append(slip(0, rng.choice(WIDTHS)))
        for first in slips: carry_out(index, first)
        slips += random_slips(rng, index)
        if rng.random() < 0.4: slips.append(bytes(rng.choice((rng.randrange(6), rng.randrange(256))) for _ in range(rng.randrange(1, 72))))
        yield slips


def shortest(slips, fails):
    """The shortest list found by leaving slips out of one that fails."""
    i = 0
    while i < len(slips):
        fewer = slips[:i] + slips[i + 1:]
        if fails(fewer): slips, i = fewer, 0
        else: i += 1
    return slips


def main():
    if not all(prompt(width, cut) for width, cut in ((4, 9), (70, 16), (512, 71))):
        sys.exit('failed: a line was late, early or wrong on an open pipe')
    streams = total = 0
    for slips in (*short_ones(), *random_ones(random.Random(20261115))):
        def fails(some):
            stream = b''.join(some)
            return printed(stream, random.Random(streams)) != expected(stream)
        if fails(slips):
            print('failed:')
            for s in shortest(slips, fails): print('  ' + s.hex(' ', 4))
            sys.exit(1)
        streams, total = streams + 1, total + len(slips)
    print(f'{streams} streams, {total} slips in pieces, as the request says; lines appear while the pipe is open')


main()
