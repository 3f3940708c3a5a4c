#!/usr/bin/env python3
"""Draws delays.svg: the mean delay of a store against the share of free sectors, measured and by the report's formula.

    ../../target/delays > delays.txt && python3 draw_delays.py

delays.txt has a line for each drive and share, as delays.c prints them."""
from pathlib import Path

HERE = Path(__file__).resolve().parent
COLOURS = ["#1f5fa8", "#b4451f", "#3c7d3c"]
WIDTH, HEIGHT, LEFT, TOP, RIGHT, BOTTOM = 760, 470, 64, 24, 24, 56
LEGEND = 350
MOST_DELAY = 16.0


def measured(path):
    """The drives in the order of the file, each with its points (share, delay)."""
    drives = {}
    for line in path.read_text().splitlines():
        per_track, tracks, switch, share, delay = line.split()
        drives.setdefault((int(per_track), int(tracks), int(switch)), []).append((float(share), float(delay)))
    return drives


def one_track(size, share):
    """The report's (1): sectors skipped on a track of so many sectors."""
    return (1 - share) * size / (1 + share * size)


def one_cylinder(tracks, switch, share):
    """The report's (4): the mean of the lesser of two delays, as the sum over k of the chance that both exceed k."""
    total, used = 0.0, 1 - share
    for k in range(100_000):
        own = used ** (k + 1)
        other = 1.0 if k < switch else used ** ((tracks - 1) * (k - switch + 1))
        if own * other < 1e-12:
            break
        total += own * other
    return total


def formula(drive, share):
    per_track, tracks, switch = drive
    return one_track(per_track, share) if tracks == 1 else one_cylinder(tracks, switch, share)


def at(share, delay):
    x = LEFT + share * (WIDTH - LEFT - RIGHT)
    y = HEIGHT - BOTTOM - min(delay, MOST_DELAY) / MOST_DELAY * (HEIGHT - TOP - BOTTOM)
    return f"{x:.1f},{y:.1f}"


def axes():
    left, bottom = at(0, 0).split(",")
    yield f'<path d="M{at(0, MOST_DELAY)} L{at(0, 0)} L{at(1, 0)}" fill="none" stroke="#333"/>'
    for tenth in range(0, 11, 2):
        x = at(tenth / 10, 0).split(",")[0]
        yield f'<text x="{x}" y="{HEIGHT - BOTTOM + 18}" text-anchor="middle">{tenth * 10} %</text>'
    for delay in range(0, int(MOST_DELAY) + 1, 4):
        y = at(0, delay).split(",")[1]
        yield f'<path d="M{left},{y} L{at(1, delay)}" stroke="#ddd"/>'
        yield f'<text x="{LEFT - 8}" y="{float(y) + 4:.1f}" text-anchor="end">{delay}</text>'
    yield f'<text x="{WIDTH / 2}" y="{HEIGHT - 14}" text-anchor="middle">free sectors, of all</text>'
    yield f'<text x="16" y="{HEIGHT / 2}" text-anchor="middle" transform="rotate(-90 16 {HEIGHT / 2})">mean delay of a store, in sector times</text>'


def curves(drives):
    for (drive, points), colour in zip(drives.items(), COLOURS):
        shares = [i / 200 for i in range(4, 200)]
        line = " L".join(at(s, formula(drive, s)) for s in shares if formula(drive, s) <= MOST_DELAY)
        yield f'<path d="M{line}" fill="none" stroke="{colour}" stroke-dasharray="5 3"/>'
        for share, delay in points:
            if delay <= MOST_DELAY:
                x, y = at(share, delay).split(",")
                yield f'<circle cx="{x}" cy="{y}" r="3" fill="{colour}"/>'


def legend(drives):
    for i, (drive, colour) in enumerate(zip(drives, COLOURS)):
        per_track, tracks, switch = drive
        name = f"one track of {per_track:,}" if tracks == 1 else f"{tracks} tracks of {per_track}, switch {switch}"
        y = TOP + 16 + 20 * i
        yield f'<circle cx="{LEGEND}" cy="{y - 4}" r="3" fill="{colour}"/>'
        yield f'<path d="M{LEGEND + 12},{y - 4} L{LEGEND + 42},{y - 4}" stroke="{colour}" stroke-dasharray="5 3"/>'
        yield f'<text x="{LEGEND + 50}" y="{y}">{name}: measured, formula</text>'


def main():
    drives = measured(HERE / "delays.txt")
    parts = [f'<svg xmlns="http://www.w3.org/2000/svg" width="{WIDTH}" height="{HEIGHT}" font-family="sans-serif" font-size="13">',
             '<rect width="100%" height="100%" fill="white"/>', *axes(), *curves(drives), *legend(drives), "</svg>"]
    (HERE / "delays.svg").write_text("\n".join(parts) + "\n")
    for drive, points in drives.items():
        for share, delay in points:
            print(*drive, f"{share:.4f} {delay:.4f} {formula(drive, share):.4f}")


if __name__ == "__main__":
    main()
