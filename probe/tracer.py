"""The tracer, compiled from its C sources, and one call run under it."""
import ctypes
import multiprocessing
import os
import subprocess
from dataclasses import dataclass, field
from statistics import NormalDist

from image import BASE
from inputs import DATA, FreshWords, Inputs, Result, Shares

HERE = os.path.dirname(os.path.abspath(__file__))
SECRETS = 4
FEWEST = 40  # runs for each secret: with fewer, hardly anything could be seen
FALSE_ALARM = 1e-5  # for a whole call
SPREAD = 7919  # with another seed other steps are sampled
WORD, WEIGHT, FLAGS = range(3)
REGISTER = 0  # where a value is; anything else is memory
OTHER_PATH, LOST, EMULATOR = 1, 2, 3  # how a run ends: trace.c
u64 = ctypes.c_uint64


class Finding(ctypes.Structure):
    """trace.h has the meaning of each."""

    _fields_ = [("step", u64), ("address", u64), ("deviate", ctypes.c_double), ("ones", ctypes.c_uint32 * 8)]
    _fields_ += [(name, ctypes.c_int32) for name in ("kind", "where", "lane", "number", "test", "handed_back")]


@dataclass
class Measured:
    """What the runs of one call showed."""

    steps: int
    runs: int
    missed: list  # how many registers the decoder missed, and where last
    moved: list  # how often an address differed from run to run, and where last
    leaks: list = field(default_factory=list)
    handed_back: list = field(default_factory=list)  # or what it compares
    values: int = 0
    largest: float = 0
    threshold: float = 0


class Stopped(Exception):
    """A run that did not go as the others: why, and whether that is a leak."""

    def __init__(self, why, leak=False):
        super().__init__(why)
        self.leak = leak


def send_outcome(sender, look, arguments):
    try:
        sender.send(look(*arguments))
    except Stopped as stopped:
        sender.send(stopped)


def in_own_process(look, *arguments):
    """What this says of one call, in a process of its own; Stopped where that ends without an outcome."""
    receiver, sender = multiprocessing.Pipe(duplex=False)
    process = multiprocessing.Process(target=send_outcome, args=(sender, look, arguments))
    process.start()
    sender.close()
    try:
        outcome = receiver.recv()
    except EOFError:
        outcome = Stopped("the tracer broke off")
    finally:
        process.join()
    if isinstance(outcome, Stopped):
        raise outcome
    return outcome


def compile_tracer(folder):
    library = os.path.join(folder, "tracer.so")
    sources = [os.path.join(HERE, name) for name in ("trace.c", "count.c", "decode.c")]
    subprocess.run(["cc", "-O2", "-Wall", "-Wextra", "-shared", "-fPIC", *sources, "-o", library, "-lunicorn", "-lcapstone", "-lm"], check=True)
    return library


def text_of(library, image, address):
    text = ctypes.create_string_buffer(80)
    code = image.code[address - BASE : address - BASE + 16]
    ctypes.CDLL(library).probe_text(code, u64(len(code)), u64(address), text, u64(80))
    return text.value.decode()


class Tracer:
    """The tracer, opened for one call. Once in a process."""

    def __init__(self, library, image, call, seed):
        self.library, self.image, self.call = ctypes.CDLL(library), image, call
        self.library.probe_values.restype = self.library.probe_findings.restype = u64
        self.entry = image.entry(call.function)
        if self.entry is None:
            raise Stopped(f"there is no function {call.function}")
        self.inputs = Inputs(call, SECRETS, seed)
        frame = self.inputs.draw(0)
        handed = call.hands_back
        opened = (u64(frame.offsets[handed]), u64(handed.count * handed.width // 8)) if handed else (u64(0), u64(0))
        memory = (u64(BASE), image.code, u64(len(image.code)), u64(DATA), u64(len(frame.data)))
        copy = image.span("private_copy") if image.entry("private_copy") else (0, 0)
        kept = (call.visits, u64(call.sample), u64(seed * SPREAD), *map(u64, copy))
        if self.library.probe_open(*memory, SECRETS, *kept, *opened):
            raise Stopped("the emulator does not start")
        if isinstance(call.splits, Shares):
            words = next(argument for argument in call.arguments if isinstance(argument, FreshWords))
            spans = [(DATA + frame.offsets[one], one.bytes()) for one in (call.splits, words)]
            self.library.probe_splits(*(u64(number) for span in spans for number in span))

    def run(self, which):
        """One run with a secret; it must take the path of the others, and give the number that is expected."""
        frame = self.inputs.draw(which)
        result, after = (u64 * 2)(), ctypes.POINTER(ctypes.c_uint8)()
        registers = (u64 * len(frame.registers))(*frame.registers)
        stack = (frame.stack, u64(len(frame.stack)))
        ending = self.library.probe_run(which, u64(self.entry), registers, len(registers), *stack, frame.data, result, ctypes.byref(after))
        if ending == OTHER_PATH:
            raise Stopped(f"the path depends on the data at {self.image.place(result[1])}", leak=True)
        if ending:
            why = "loses the path" if ending == LOST else f"stops with error {ending - EMULATOR}"
            raise Stopped(f"the emulator {why} at {self.image.place(result[1])}")
        self.accept(frame, result[0], after)

    def accept(self, frame, answer, after):
        """Stops where another number was handed back than expected, in the answer or at the start of a struct."""
        number = answer & 0xFFFFFFFF
        for argument in self.call.arguments:
            if isinstance(argument, Result):
                number = int.from_bytes(bytes(after[frame.offsets[argument] + i] for i in range(4)), "little")
        if self.call.number not in (None, number):
            raise Stopped(f"it answers {number}, not {self.call.number}")

    def measure(self, runs):
        """So many runs for each secret; of a call that must be flagged, the fewest if these show it."""
        self.run(0)  # for the path alone
        done = 0
        while done < runs:
            goal = min(runs, FEWEST) if self.call.leaks and not done else runs
            for run in range(done * SECRETS, goal * SECRETS):
                self.run(run % SECRETS)
            done = goal
            measured = self.measured(done)
            if measured.leaks:
                break
        return measured

    def measured(self, runs):
        findings, tests, state = (Finding * max(1, self.library.probe_values()))(), u64(), (u64 * 6)()
        found = findings[: self.library.probe_findings(findings, ctypes.byref(tests))]
        self.library.probe_state(state)
        threshold = NormalDist().inv_cdf(1 - FALSE_ALARM / max(tests.value, 1))
        found = [one for one in found if self.counts(one, state[5])]
        return self.sorted_out(found, threshold, Measured(steps=state[0], runs=runs, missed=state[1:3], moved=state[3:5]))

    def counts(self, finding, split_end):
        """A call that gets its secret in the clear may hold it in registers until it is split, and never store it."""
        return finding.where != REGISTER or not self.call.splits or 0 < split_end <= finding.step

    def sorted_out(self, found, threshold, measured):
        """The findings beyond the threshold, by what they mean."""
        beyond = [one for one in found if one.deviate > threshold]
        open_steps = {one.step for one in beyond if one.handed_back}
        for one in beyond:
            if self.call.compares or one.handed_back or (one.kind != WORD and one.step in open_steps):
                measured.handed_back.append(one)
            else:
                measured.leaks.append(one)
        measured.values, measured.threshold = len(found), threshold
        measured.largest = max((one.deviate for one in found), default=0)
        return measured
