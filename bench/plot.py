#!/usr/bin/env python3
"""Draws docs/performance.svg from the benchmark's output on standard input: time of a search against its compares, width 64, B 65,535."""
import math
import sys

WIDTH, HEIGHT, LEFT, BOTTOM, TOP, RIGHT = 720, 440, 70, 50, 30, 190
SERIES = (('library', '#1b6ca8', None), ('hand-written', '#c0392b', 'to hand-written'), ('fastest', '#e08e0b', 'to fastest'),
          ('linear scan', '#7f8c8d', 'to linear scan'))


def rows():
    """Each row's compares, and the microseconds of each series."""
    columns = []
    for line in sys.stdin:
        cells = [c.strip() for c in line.split('|')[1:-1]]
        if 'us a search' in cells:
            columns = cells
        row = dict(zip(columns, cells))
        if 'width' not in columns and row.get('tree') == 'rebuilt' and 'weight 32, B 65535' in row['store']:
            us = float(row['us a search'])
            yield float(row['compares']), [us / float(row[ratio]) if ratio else us for _, _, ratio in SERIES]


def main():
    points = sorted(rows())
    xs = [p[0] for p in points]
    ys = [us for _, times in points for us in times]
    x0, x1 = math.floor(math.log10(min(xs))), math.ceil(math.log10(max(xs)))
    y0, y1 = math.floor(math.log10(min(ys))), math.ceil(math.log10(max(ys)))

    def x(v): return LEFT + (math.log10(v) - x0) / (x1 - x0) * (WIDTH - LEFT - RIGHT)
    def y(v): return HEIGHT - BOTTOM - (math.log10(v) - y0) / (y1 - y0) * (HEIGHT - BOTTOM - TOP)

    out = [f'<svg xmlns="http://www.w3.org/2000/svg" width="{WIDTH}" height="{HEIGHT}" font-family="sans-serif" font-size="13">',
           f'<rect width="{WIDTH}" height="{HEIGHT}" fill="white"/>']
    for k in range(x0, x1 + 1):
        out.append(f'<line x1="{x(10**k):.1f}" y1="{TOP}" x2="{x(10**k):.1f}" y2="{HEIGHT-BOTTOM}" stroke="#ddd"/>')
        out.append(f'<text x="{x(10**k):.1f}" y="{HEIGHT-BOTTOM+18}" text-anchor="middle">{10**k:,}</text>')
    for k in range(y0, y1 + 1):
        out.append(f'<line x1="{LEFT}" y1="{y(10**k):.1f}" x2="{WIDTH-RIGHT}" y2="{y(10**k):.1f}" stroke="#ddd"/>')
        out.append(f'<text x="{LEFT-8}" y="{y(10**k)+4:.1f}" text-anchor="end">{10**k:,}</text>')
    for n, (name, colour, _) in enumerate(SERIES):
        line = ' '.join(f'{x(compares):.1f},{y(times[n]):.1f}' for compares, times in points)
        out.append(f'<polyline points="{line}" fill="none" stroke="{colour}" stroke-width="2"/>')
        for compares, times in points: out.append(f'<circle cx="{x(compares):.1f}" cy="{y(times[n]):.1f}" r="3" fill="{colour}"/>')
        out.append(f'<text x="{WIDTH-RIGHT+12}" y="{TOP+20+22*n}" fill="{colour}">{name}</text>')
    out.append(f'<text x="{(LEFT+WIDTH-RIGHT)/2}" y="{HEIGHT-10}" text-anchor="middle">signatures compared (rebuilt tree, 65,535 distinct, weight 32)</text>')
    out.append(f'<text x="16" y="{HEIGHT/2}" text-anchor="middle" transform="rotate(-90 16 {HEIGHT/2})">microseconds a search</text></svg>')
    print('\n'.join(out))


main()
