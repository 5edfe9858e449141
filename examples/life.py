#!/usr/bin/env python3
"""Plots the life of one setting: its value over the versions, as an SVG of steps.

    PYTHONPATH=PREFIX/share/rcst examples/life.py FILE KEY > life.svg
"""
import sys

import rcst

LEFT, TOP, WIDTH, HEIGHT = 60, 30, 600, 200


def steps(stretches, last):
    """For each stretch its first version, the first one behind it, and its value."""
    return [(one.start, last + 1 if one.end is None else one.end, one.value) for one in stretches]


def plot(key, stretches, last):
    parts = steps(stretches, last)
    highest = max((value for _, _, value in parts), default=0) or 1
    across = lambda version: LEFT + WIDTH * version / (last + 1)
    down = lambda value: TOP + HEIGHT * (1 - value / highest)
    size = f'width="{LEFT + WIDTH + 20}" height="{TOP + HEIGHT + 40}"'
    yield f'<svg xmlns="http://www.w3.org/2000/svg" {size} font-family="sans-serif" font-size="11">'
    yield f'<text x="{LEFT}" y="18" font-size="14">setting {key} over the versions</text>'
    yield f'<path d="M{LEFT},{TOP}v{HEIGHT}h{WIDTH}" stroke="#456" fill="none"/>'
    for start, end, value in parts:
        yield f'<path d="M{across(start):.1f},{down(value):.1f}H{across(end):.1f}" stroke="#b3461f" stroke-width="2"/>'
        yield f'<text x="{across(start):.1f}" y="{down(value) - 4:.1f}">{value}</text>'
    for version in range(0, last + 1, max(1, (last + 1) // 20)):
        yield f'<text x="{across(version):.1f}" y="{TOP + HEIGHT + 16}">{version}</text>'
    yield "</svg>"


def main():
    if len(sys.argv) != 3:
        sys.exit("life.py FILE KEY")
    store = rcst.Store.read(sys.argv[1])
    key = int(sys.argv[2])
    print(*plot(key, store.life(key), store.version), sep="\n")


if __name__ == "__main__":
    main()
