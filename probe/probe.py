#!/usr/bin/env python3
"""Does a single value in the compiled code depend on a secret that the caller passes in shares? See README.md."""
import argparse
import os
import sys
import tempfile
import time
from collections import Counter, defaultdict
from concurrent.futures import ThreadPoolExecutor
from dataclasses import dataclass
from typing import Any, Callable

import calls
import controls
import left
from image import Image
from tracer import FEWEST, FLAGS, REGISTER, SECRETS, WORD, Stopped, Tracer, compile_tracer, in_own_process, text_of

REGISTERS = "rax rcx rdx rbx rsp rbp rsi rdi r8 r9 r10 r11 r12 r13 r14 r15".split() + [f"xmm{i}" for i in range(16)]
FLAG_NAMES = "CF PF ZF SF OF".split()
WEIGHT_TEST, PARITY_TEST = 44, 46


@dataclass
class Job:
    """A call, in which image it stands, and how it is looked at."""

    examine: Callable
    library: str
    image: Image
    call: Any
    options: argparse.Namespace


@dataclass
class Outcome:
    """What is said of one call, and what goes into the totals."""

    verdict: str
    expected: bool
    lines: list
    values: int = 0
    runs: int = 0


def test_name(finding, runs):
    """The part of a value that tells, and for a bit how often it is 1 under each secret."""
    if finding.kind == FLAGS:
        name = FLAG_NAMES[finding.test] if finding.test < 5 else "flags"
    elif finding.test in (WEIGHT_TEST, PARITY_TEST):
        name = "weight" if finding.test == WEIGHT_TEST else "parity"
    else:
        limits = ((32, "bit", 0), (40, "nibble", 32), (44, "byte", 40))
        name = next(f"{part} {finding.test - first}" for limit, part, first in limits if finding.test < limit)
    if 32 <= finding.test < PARITY_TEST:
        return name
    return f"{name} is 1 in " + " ".join(f"{finding.ones[which] / runs:.2f}" for which in range(SECRETS))


def leak_lines(library, image, measured, show):
    """The instructions whose values depend on the secret."""
    places = defaultdict(list)
    for finding in measured.leaks:
        places[finding.address].append(finding)
    for address in sorted(places)[:show]:
        worst = max(places[address], key=lambda finding: (finding.kind != FLAGS, finding.deviate))
        what = "memory" if worst.where != REGISTER else "flags" if worst.kind == FLAGS else REGISTERS[worst.number] + f".{worst.lane}" * (worst.kind == WORD)
        first = min(finding.step for finding in places[address])
        yield (f"    {image.place(address)}  {text_of(library, image, address)}  {what}: {test_name(worst, measured.runs)}, "
               f"deviate {worst.deviate:.0f}, {len(places[address])} times, first at step {first} of {measured.steps}")
    if len(places) > show:
        yield f"    and {len(places) - show} more"


def openly(call):
    """What a call does with a secret in the clear, if anything."""
    return "compares" if call.compares else "hands back" if call.hands_back else ""


def faults_of(image, call, measured):
    """What makes a call untested or not constant, whatever its values are."""
    if measured.missed[0]:
        yield f"the decoder misses a register at {image.place(measured.missed[1])}"
    if measured.runs < FEWEST:
        yield f"fewer than {FEWEST} runs"
    if openly(call) and not measured.handed_back:
        yield f"nothing of what it {openly(call)} openly was seen"


def count(findings):
    instructions = len({one.address for one in findings})
    return f"{instructions} instruction{'s' * (instructions != 1)}"


def summary(call, measured, seconds):
    parts = [f"{measured.steps} steps, {measured.values} values, {SECRETS} x {measured.runs} runs"]
    if measured.leaks:
        parts.append(f"at {count(measured.leaks)}")
    elif measured.moved[0]:
        parts.append("by an address")
    elif not measured.handed_back:
        parts.append(f"largest deviate {measured.largest:.1f}, limit {measured.threshold:.1f}")
    if measured.handed_back:
        first = min(one.step for one in measured.handed_back)
        parts.append(f"{count(measured.handed_back)} in the last {measured.steps - first} steps hold what it {openly(call)}")
    return "; ".join(parts) + f" ({seconds:.0f} s)"


def judge(call, leaks, fault, text, lines):
    """The verdict on a call; the details are told only where it is not as expected."""
    expected = not fault and leaks == call.leaks
    verdict = "error" if fault else "leak" if leaks else "clean"
    mark = "" if expected else "NOT AS EXPECTED: "
    return Outcome(verdict, expected, [f"{mark}{call.name}: {verdict}; {text}", *([] if expected else lines)])


def examine(job):
    """One call, once in a process: what depends on its secrets."""
    library, image, call, options = job.library, job.image, job.call, job.options
    start, runs = time.time(), options.runs or (call.deep if options.deep else call.quick)
    measured = Tracer(library, image, call, options.seed).measure(runs)
    faults = [f"    {fault}" for fault in faults_of(image, call, measured)]
    lines = list(leak_lines(library, image, measured, options.show))
    if measured.moved[0]:
        lines.append(f"    {measured.moved[0]} times an address depends on the data, last at {image.place(measured.moved[1])}")
    leaks = bool(measured.leaks or measured.moved[0])
    outcome = judge(call, leaks, bool(faults), summary(call, measured, time.time() - start), faults + lines)
    outcome.values, outcome.runs = measured.values, SECRETS * measured.runs
    return outcome


def examine_left(job):
    """One call, once in a process: what it leaves behind, which must be nothing once it is cleared."""
    found = left.measure(job.library, job.image, job.call, job.options.seed)
    fault = job.call.leaves and not found.telling
    text = f"{found.stack} bytes of stack; leaves {found.telling} that change with the secret, cleared {found.kept}"
    return judge(job.call, found.kept > 0, fault, text, [])


def outcome_of(job):
    """What is said of one call; one that stops is an error or a leak."""
    try:
        return in_own_process(job.examine, job)
    except Stopped as stopped:
        return judge(job.call, stopped.leak, not stopped.leak, str(stopped), [])


def totals(outcomes, seconds):
    verdicts = Counter(outcome.verdict for outcome in outcomes)
    bad = sum(not outcome.expected for outcome in outcomes)
    values, runs = sum(outcome.values for outcome in outcomes), sum(outcome.runs for outcome in outcomes)
    return (f"probe: {len(outcomes)} calls, {verdicts['clean']} clean and {verdicts['leak']} flagged, {bad} not as expected; "
            f"{values} values, {runs} runs, {seconds:.0f} s")


def jobs_of(library, options):
    tables = [
        (examine, options.archive, calls.CALLS),
        (examine_left, options.archive, calls.ONCE),
        (examine, options.wide, controls.WIDE),
        (examine, options.controls, controls.HAND_WRITTEN),
        (examine, options.veiled, controls.trial(leaks=False)),
        (examine, options.unveiled, controls.trial(leaks=True)),
    ]
    for look, file, table in tables:
        image = Image(file) if file else None
        for call in table if file else ():
            if options.only in call.name:
                yield Job(look, library, image, call, options)


def untested(archive):
    """Functions of the archive that no call is for. The queries, which end so, take no secret."""
    known = {call.function for call in calls.CALLS} | {left.CLEAR, left.CLEAR_OF}
    names = sorted(name for name in Image(archive).exported() - known if not name.endswith("_words"))
    return [Outcome("error", False, [f"NOT AS EXPECTED: no call of {name} is tested"]) for name in names]


def options_given():
    parser = argparse.ArgumentParser(description=__doc__)
    parser.add_argument("archive", nargs="?", help="libflamivorse.a, to be tested")
    parser.add_argument("--wide", metavar="ARCHIVE", help="the same with wide_copy.s in place of its own copy")
    parser.add_argument("--controls", metavar="OBJECT", help="controls.s, assembled")
    parser.add_argument("--veiled", metavar="ARCHIVE", help="trial.rattle with the veil")
    parser.add_argument("--unveiled", metavar="ARCHIVE", help="trial.rattle with a veil that adds nothing")
    parser.add_argument("--deep", action="store_true", help="many more runs")
    parser.add_argument("--only", default="", metavar="TEXT", help="only calls with this in their names")
    parser.add_argument("--runs", type=int, help="so many for each secret")
    parser.add_argument("--seed", type=int, default=1)
    parser.add_argument("--show", type=int, default=12, help="so many instructions of a leak")
    parser.add_argument("--jobs", type=int, default=os.cpu_count())
    return parser.parse_args()


def main():
    options, start = options_given(), time.time()
    outcomes = untested(options.archive) if options.archive else []
    for outcome in outcomes:
        print(*outcome.lines)
    with tempfile.TemporaryDirectory() as folder:
        jobs = list(jobs_of(compile_tracer(folder), options))
        with ThreadPoolExecutor(options.jobs) as threads:
            for outcome in threads.map(outcome_of, jobs):
                print(*outcome.lines, sep="\n", flush=True)
                outcomes.append(outcome)
    print(totals(outcomes, time.time() - start))
    sys.exit(not outcomes or any(not outcome.expected for outcome in outcomes))


if __name__ == "__main__":
    main()
