"""A reference loader: reads listings, works each node out once by its number, and holds demand 3 against them.

usage: python3 loader --with COMMAND [--with COMMAND ..] [--count COUNT] [--seed SEED] [--from NUMBER]

Each COMMAND reads framed sheets and writes framed listings, with or without the lines of `--details`. Each of COUNT
(default 20000) random sheets is given to it once for each of its records, cut after that record.
"""

import argparse
import sys
from collections import Counter

import balance
import listing
import program
import sheets

# Sheets that one run of a program answers.
CHUNK = 500
REPORTED_MAXIMUM = 3


def options():
    parser = argparse.ArgumentParser(prog="loader", description=__doc__.split("\n")[0])
    parser.add_argument("--with", dest="commands", action="append", required=True)
    parser.add_argument("--count", type=int, default=20_000)
    parser.add_argument("--seed", type=int, default=1)
    parser.add_argument("--from", dest="start", type=int, default=0)
    return parser.parse_args()


def check_chunk(command, seed, numbers, total):
    chunk = [sheets.numbered(seed, number) for number in numbers]
    cut = [sheets.sheet_of(records[: length + 1]) for records in chunk for length in range(len(records))]
    texts = iter(program.answers(command, cut))
    for number, records in zip(numbers, chunk):
        of_sheet = [next(texts) for _ in records]
        try:
            total.update(balance.check(records, of_sheet, seed))
        except (balance.Wrong, listing.Misread) as error:
            total["differences"] += 1
            if total["differences"] <= REPORTED_MAXIMUM:
                print(f"sheet {number}: {error}\n{sheets.sheet_of(records).hex().upper()}\n{of_sheet[-1]}")


def holds(command, chosen):
    """Whether demand 3 holds of a program's listings. A run that checked no pair shows nothing, and fails."""
    total = Counter(sheets=0, differences=0)
    end = chosen.start + chosen.count
    for start in range(chosen.start, end, CHUNK):
        check_chunk(command, chosen.seed, range(start, min(start + CHUNK, end)), total)
    print(f"listings of {command}")
    for name, count in total.items():
        print(f"{name}: {count}")
    return total["differences"] == 0 and total["pairs checked"] > 0


def main():
    chosen = options()
    sys.exit(0 if all([holds(command, chosen) for command in chosen.commands]) else 1)


if __name__ == "__main__":
    main()
