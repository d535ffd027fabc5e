#!/usr/bin/env python3
"""A reader of the archive file, written from docs/ARCHIVE.md alone.

For each file that the arguments name (without one: for standard input) it
prints `refused 17`, or what the file holds as plain text: a line of inputs and
one of totals, then a line for each record, stored snapshot and log. Absent
round slots are `-`, the loss rate is its 16 hexadecimal digits, and a count of
more than 64 terms is taken as 64. tests/archive_reader.c prints the same.
Exit status: 0, or 2 if a file can't be read.
"""

import struct
import sys
from typing import Iterator, NamedTuple, Optional

FIRST = 5
HEAD = 41
ABSENT = 2**64 - 1
NODES = 32
TERMS = 64
COUNTS = 2048


class Archive(NamedTuple):
    """What one file holds."""

    inputs: tuple[int, ...]
    totals: tuple[int, ...]
    records: list[tuple[int, ...]]
    snapshots: list[tuple[int, ...]]
    logs: list[bytes]


def find_sections(data: bytes) -> Optional[list[bytes]]:
    """The five sections, or None if a test of the layout fails."""
    if len(data) < HEAD or data[0] != FIRST:
        return None
    pairs = list(struct.iter_unpack("<II", data[1:HEAD]))
    end = HEAD
    for start, size in pairs:
        if start != end:
            return None
        end = start + size
    inputs, totals, records, snapshots, logs = (size for _, size in pairs)
    if end != len(data) or (inputs, totals, logs) != (80, 120, 2080):
        return None
    if records % 24 != 0 or snapshots % 40 != 0:
        return None
    return [data[start : start + size] for start, size in pairs]


def read(data: bytes) -> Optional[Archive]:
    """The numbers of a file, or None if it is refused."""
    sections = find_sections(data)
    if sections is None:
        return None
    inputs, totals, records, snapshots, logs = sections
    numbers = struct.unpack("<15Q", totals)
    nodes = min(numbers[0], NODES)
    counts = (min(count, TERMS) for count in logs[COUNTS : COUNTS + nodes])
    return Archive(
        inputs=struct.unpack("<10Q", inputs),
        totals=numbers,
        records=list(struct.iter_unpack("<3Q", records)),
        snapshots=list(struct.iter_unpack("<5Q", snapshots)),
        logs=[logs[TERMS * i : TERMS * i + count] for i, count in enumerate(counts)],
    )


def input_words(inputs: tuple[int, ...]) -> list[str]:
    """The inputs as words: round slots may be absent, the loss is a pattern."""
    words = [str(number) for number in inputs]
    if inputs[4] == ABSENT:
        words[4] = "-"
    words[5] = f"{inputs[5]:016x}"
    return words


def lines(data: bytes) -> Iterator[str]:
    """The lines to print for one file."""
    archive = read(data)
    if archive is None:
        yield "refused 17"
        return
    yield " ".join(["inputs", *input_words(archive.inputs)])
    yield " ".join(["totals", *map(str, archive.totals)])
    for record in archive.records:
        yield " ".join(["record", *map(str, record)])
    for snapshot in archive.snapshots:
        yield " ".join(["snapshot", *map(str, snapshot)])
    for node, log in enumerate(archive.logs):
        yield " ".join(["log", str(node), *map(str, log)])


def main(names: list[str]) -> int:
    """Prints each file in turn."""
    if not names:
        sys.stdout.writelines(f"{line}\n" for line in lines(sys.stdin.buffer.read()))
    for name in names:
        try:
            with open(name, "rb") as file:
                data = file.read()
        except OSError:
            sys.stdout.flush()
            print(f"{name}: can't be read", file=sys.stderr)
            return 2
        sys.stdout.writelines(f"{line}\n" for line in lines(data))
    return 0


if __name__ == "__main__":
    sys.exit(main(sys.argv[1:]))
