#!/usr/bin/env python3
"""How many bytes of stack does each call of the archive take? Prints the table of docs/FIGURES.md. See README.md."""
import argparse
import sys
import tempfile
from concurrent.futures import ThreadPoolExecutor

import calls
import left
from image import Image
from inputs import Call, Number
from tracer import Stopped, compile_tracer, in_own_process

COUNTS = (1, 2, 3, 4, 8, 16)
CLEARING = [Call("clear_stack", left.CLEAR, ()), Call("clear_stack_of", left.CLEAR_OF, (Number(0),))]
JOBS, SEED = 2, 1


def rows(n):
    """Every call with so many shares, by the name of its row. Clearing takes no count, and is the same with each."""
    every = [*calls.EVERY[n], *calls.queries(n), *CLEARING]
    return {call.name.removesuffix(f", {n} shares"): call for call in every}


def taken_by(library, image, call):
    try:
        return in_own_process(left.stack_of, library, image, call, SEED)
    except Stopped as stopped:
        sys.exit(f"stack: {call.name}: {stopped}")


def measured(archive):
    """The bytes that each call takes, by row and share count."""
    image = Image(archive)
    made = {(row, n): call for n in calls.EVERY for row, call in rows(n).items()}
    unmeasured = image.exported() - {call.function for call in made.values()}
    if unmeasured:
        sys.exit(f"stack: no call of {', '.join(sorted(unmeasured))} is measured")
    with tempfile.TemporaryDirectory() as folder, ThreadPoolExecutor(JOBS) as threads:
        library = compile_tracer(folder)
        return dict(zip(made, threads.map(lambda call: taken_by(library, image, call), made.values())))


def table(figures):
    """The figures as lines of Markdown, without the calls that take none. Every call can be made with two shares."""
    yield f"| Call | {' | '.join('1 share' if n == 1 else f'{n} shares' for n in COUNTS)} |"
    yield "|---|" + "---|" * len(COUNTS)
    for row in (row for row in rows(2) if any(figures.get((row, n)) for n in COUNTS)):
        function, comma, which = row.partition(", ")
        cells = (f"{figures[row, n]:,}" if (row, n) in figures else "–" for n in COUNTS)
        yield f"| `{function}`{comma}{which} | {' | '.join(cells)} |"


def main():
    parser = argparse.ArgumentParser(description=__doc__)
    parser.add_argument("archive", help="libflamivorse.a")
    print(*table(measured(parser.parse_args().archive)), sep="\n")


if __name__ == "__main__":
    main()
