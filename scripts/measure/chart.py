#!/usr/bin/env python3
"""Draws a bar chart, as SVG, of what `scripts/measure/measure.py peers` wrote.

Usage: scripts/measure/chart.py CSV > SVG

Each line of CSV, but the first, is `job,reader,seconds,megabytes_a_second`. A bar is as long as its reader is fast, on
one scale; those of this project's program are drawn dark.
"""

import csv
import html
import sys

TITLES = {
    "walk": "Walk every entry (copy writes them back, too)",
    "check": "Check references, texts and siblings",
    "text": "Print everything as text",
}
LEFT, WIDTH, BAR, GAP = 130, 470, 18, 6
SCALE = "Megabytes of .debug_info a second of processor"


def main(path):
    with open(path, encoding="utf-8", newline="") as file:
        rows = list(csv.DictReader(file))
    longest = max(float(it["megabytes_a_second"]) for it in rows)
    parts, y = [], 44
    for job in dict.fromkeys(it["job"] for it in rows):
        parts.append(f'  <text x="10" y="{y}" font-weight="600">{html.escape(TITLES.get(job, job))}</text>')
        y += 10
        for row in (it for it in rows if it["job"] == job):
            speed = float(row["megabytes_a_second"])
            own = row["reader"].startswith("dwarf ")
            length, color = max(2, round(WIDTH * speed / longest)), "#1e3a8a" if own else "#94a3b8"
            parts.append(f'  <text x="{LEFT - 8}" y="{y + 14}" text-anchor="end">{html.escape(row["reader"])}</text>')
            parts.append(f'  <rect x="{LEFT}" y="{y}" width="{length}" height="{BAR}" fill="{color}"/>')
            parts.append(f'  <text x="{LEFT + length + 6}" y="{y + 14}">{speed:.1f}</text>')
            y += BAR + GAP
        y += 26
    shape = f'xmlns="http://www.w3.org/2000/svg" viewBox="0 0 680 {y}" font-family="system-ui, sans-serif"'
    print(f'<svg {shape} font-size="13" role="img" aria-label="{SCALE}">')
    print(f'  <rect width="680" height="{y}" fill="#ffffff"/>')
    print(f'  <text x="10" y="16" fill="#475569">{SCALE}</text>')
    print("\n".join(parts))
    print("</svg>")


if __name__ == "__main__":
    if len(sys.argv) != 2:
        sys.exit(__doc__)
    main(sys.argv[1])
