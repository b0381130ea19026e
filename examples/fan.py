#!/usr/bin/env python3
"""Turns a sheet's text into a picture: ./sheet FILE | examples/fan.py > FILE.svg

Upper panel: the lowest and highest share of each class by year, as bands. Lower panel: the lowest and highest mean premium.
"""
import sys

ONE = 1_000_000_000
WIDTH, HEIGHT, LEFT, RIGHT, TOP, GAP = 860, 560, 64, 130, 34, 56
PANEL = (HEIGHT - TOP - GAP - 44) // 2


def parse(text):
    """The numbers of a sheet: shares[class] and means, each a list over the years of (low, high), and the total."""
    shares, means, total = {}, [], None
    for line in text.splitlines():
        words = line.split()
        if words[0] == "REFUSED":
            sys.exit("the record is refused: cause " + words[1])
        if words[0] == "YEAR" and words[2] == "CLASS":
            shares.setdefault(int(words[3]), []).append((int(words[4]), int(words[5])))
        elif words[0] == "YEAR":
            means.append((int(words[3]), int(words[4])))
        elif words[0] == "TOTAL":
            total = (int(words[1]), int(words[2]))
    return shares, means, total


def color(k, n):
    """A hue from blue, the lowest class, to red, the highest."""
    return f"hsl({220 - 220 * k // max(1, n - 1)},70%,45%)"


class Panel:
    """Axes of one panel: years across, values from 0 or `least` up to `most`."""

    def __init__(self, top, years, least, most):
        self.top, self.years, self.least, self.most = top, max(1, years), least, max(most, least + 1)

    def x(self, year):
        return LEFT + (WIDTH - LEFT - RIGHT) * year / self.years

    def y(self, value):
        return self.top + PANEL * (1 - (value - self.least) / (self.most - self.least))

    def axes(self, title, label):
        out = [f'<text x="{LEFT}" y="{self.top - 10}" font-weight="bold">{title}</text>']
        for k in range(5):
            value = self.least + (self.most - self.least) * k / 4
            y = self.y(value)
            out.append(f'<line x1="{LEFT}" y1="{y:.1f}" x2="{WIDTH - RIGHT}" y2="{y:.1f}" stroke="#ddd"/>')
            out.append(f'<text x="{LEFT - 6}" y="{y + 4:.1f}" text-anchor="end">{label(value)}</text>')
        step = max(1, self.years // 10)
        for year in range(0, self.years + 1, step):
            out.append(f'<text x="{self.x(year):.1f}" y="{self.top + PANEL + 16}" text-anchor="middle">{year}</text>')
        return out

    def band(self, figures, fill):
        if len(figures) == 1:
            figures = figures * 2
        upper = " ".join(f"{self.x(t):.1f},{self.y(high):.1f}" for t, (low, high) in enumerate(figures))
        lower = " ".join(f"{self.x(t):.1f},{self.y(low):.1f}" for t, (low, high) in reversed(list(enumerate(figures))))
        return f'<polygon points="{upper} {lower}" fill="{fill}" fill-opacity="0.18" stroke="{fill}" stroke-width="1"/>'


def draw(shares, means, total):
    years, classes = len(means) - 1, len(shares)
    upper = Panel(TOP, years, 0, max(high for band in shares.values() for low, high in band))
    lower = Panel(TOP + PANEL + GAP, years, min(low for low, high in means), max(high for low, high in means))
    out = [f'<svg xmlns="http://www.w3.org/2000/svg" width="{WIDTH}" height="{HEIGHT}" viewBox="0 0 {WIDTH} {HEIGHT}" font-family="sans-serif" font-size="12">']
    out.append(f'<rect width="{WIDTH}" height="{HEIGHT}" fill="white"/>')
    out += upper.axes("Share of each class by year, lowest to highest", lambda v: f"{100 * v / ONE:.0f} %")
    out += [upper.band(shares[k], color(k - 1, classes)) for k in sorted(shares)]
    shown = sorted(shares) if classes <= 12 else [1, (classes + 1) // 2, classes]
    for row, k in enumerate(shown):
        y = TOP + 10 + 17 * row
        out.append(f'<rect x="{WIDTH - RIGHT + 16}" y="{y - 9}" width="10" height="10" fill="{color(k - 1, classes)}"/>')
        out.append(f'<text x="{WIDTH - RIGHT + 32}" y="{y}">class {k}</text>')
    out += lower.axes("Mean premium by year, lowest to highest", lambda v: f"{v / 100:,.2f}")
    out.append(lower.band(means, "#333"))
    out.append(f'<text x="{LEFT}" y="{HEIGHT - 8}">Total of {years} premiums: {total[0] / 100:,.2f} to {total[1] / 100:,.2f}</text>')
    return "\n".join(out + ["</svg>"]) + "\n"


if __name__ == "__main__":
    sys.stdout.write(draw(*parse(sys.stdin.read())))
