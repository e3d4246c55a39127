"""Puts what the bench printed at several places in memory together: each side's best time, and the ratio of the two."""

import sys


def rows(path):
    """The rows of a run: call, notices, the library's time, the peer's."""
    with open(path, encoding="ascii") as lines:
        fields = [line.rstrip("\n").split() for line in lines]
    return [(call, int(notices), float(library), float(peer)) for call, notices, library, peer, *_ in fields[2:]]


def main(paths):
    with open(paths[0], encoding="ascii") as lines:
        print(lines.readline() + lines.readline(), end="")
    for row in zip(*(rows(path) for path in paths)):
        call, notices = row[0][:2]
        library, peer = min(one[2] for one in row), min(one[3] for one in row)
        apart = f"   {(library - peer) / 1000:+.3f} microseconds" if notices == 1 else ""
        print(f"{call:7} {notices:7} {library:12.1f} {peer:12.1f} {library / peer:8.2f}{apart}")


main(sys.argv[1:])
