"""Takes what the times program printed in several links, and prints one table.

usage: python3 bench/links.py FILE..      a file for each link
"""
import sys
from statistics import median

NAME = 29  # the width of a kind's name


def rows_of(path):
    """A file's lines by kind: nanoseconds of the proved tag and of the plain one, and the ratio."""
    with open(path, encoding="utf-8") as file:
        return {line[:NAME]: [float(word) for word in line[NAME:].split()] for line in file}


def main(paths):
    if not paths:
        print(__doc__.strip(), file=sys.stderr)
        return 2
    links = [rows_of(path) for path in paths]
    print(f"processor time of a call; a ratio is the median of the rounds' ratios in one link; medians over {len(links)} links of the same code")
    print(f"{'nanoseconds':<{NAME}}{'proved':>9}{'plain':>9}{'ratio':>8}   in one link")
    for kind in links[0]:
        proved, plain, ratios = zip(*(link[kind] for link in links))
        print(f"{kind}{median(proved):>9.0f}{median(plain):>9.0f}{median(ratios):>8.2f}   {min(ratios):.2f} to {max(ratios):.2f}")
    return 0


if __name__ == "__main__":
    sys.exit(main(sys.argv[1:]))
