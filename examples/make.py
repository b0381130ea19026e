#!/usr/bin/env python3
"""Makes the example records beside this script, from document 01's "Record" and "Ready schemes", and document 02's item 5.

example-a.record         Example A of document 01
example-a-label.record   the same as a label, in version 2
ready-1.record …         the ready schemes 1 to 3 at a base premium of 1,000.00, their bands narrowed to BANDS below
ready-1-label.record     the first of them as a label
"""
import pathlib

ONE = 1_000_000_000
SCALES = {
    1: (18, 3, "792 822 855 888 938 996 1000 1000 1000 1000 1802 1951 2208 2379 2581 2824 3066 3579"),
    2: (18, 4, "701 731 764 802 865 919 982 1000 1000 1000 1551 1676 1793 1970 2120 2297 2509 2944"),
    3: (24, 4, "541 570 604 642 785 839 901 975 1000 1000 1471 1596 1740 1890 2040 2217 2336 2416 2609 2837 3111 3148 3435 3953"),
}
BASE = 100_000
# lower and upper end of the probability of 0, 1, 2, 3 and of 4 or more claims in a year, in parts
BANDS = [(880_000_000, 930_000_000), (60_000_000, 100_000_000), (4_000_000, 15_000_000), (0, 4_000_000), (0, 1_000_000)]


def record(version, start, horizon, rules, bands, premiums):
    """The bytes of a scheme in version 1 or 2: rules class by class, bands of lower and upper, premiums."""
    classes, columns = len(rules), len(bands)
    header, width = {1: (7, 4), 2: (8, 3)}[version]
    length = header + classes * columns + 8 * columns + width * classes
    out = bytes([version]) + length.to_bytes(2, "big") + bytes([classes, columns, start, horizon])
    if version == 2:
        out += bytes([columns - 1])
    out += b"".join(bytes(row) for row in rules)
    out += b"".join(end.to_bytes(4, "big") for band in bands for end in band)
    out += b"".join(premium.to_bytes(width, "big") for premium in premiums)
    assert len(out) == length
    return out


def ready(version, number):
    """Ready scheme `number`: k claims raise the class by c × k − 1, none lowers it by 1, held to 1 to s."""
    classes, factor, tenths = SCALES[number]
    move = lambda i, k: i - 1 if k == 0 else i + factor * k - 1
    rules = [[max(1, min(classes, move(i, k))) for k in range(5)] for i in range(1, classes + 1)]
    return record(version, 10, 40, rules, BANDS, [BASE * int(t) // 1000 for t in tenths.split()])


def main():
    here = pathlib.Path(__file__).parent
    bands = [(800_000_000, 900_000_000), (100_000_000, 200_000_000), (0, 50_000_000)]
    for version, label in (1, ""), (2, "-label"):
        example = record(version, 2, 2, [[1, 1, 2], [1, 2, 2]], bands, [10_000, 15_000])
        (here / f"example-a{label}.record").write_bytes(example)
    for number in SCALES:
        (here / f"ready-{number}.record").write_bytes(ready(1, number))
    (here / "ready-1-label.record").write_bytes(ready(2, 1))


if __name__ == "__main__":
    main()
