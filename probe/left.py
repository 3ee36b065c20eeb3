"""What a call leaves behind on the stack and in registers, and that flamivorse_clear_stack clears all of it, as does
flamivorse_clear_stack_of with the bytes that the call took."""
import ctypes
from dataclasses import dataclass

from inputs import Inputs
from tracer import SECRETS, Stopped, Tracer, u64

PAINT = b"\xa5"
STACK_POINTER = 4  # of the registers; trace.h has their order
CLEAR, CLEAR_OF = "flamivorse_clear_stack", "flamivorse_clear_stack_of"
Bytes = ctypes.POINTER(ctypes.c_uint8)


@dataclass
class Left:
    """What was found after a call."""

    stack: int  # bytes that it took, written or only reserved
    telling: int  # bytes that change with the secret alone
    kept: int  # bytes that are not 0 once it is cleared, by one or the other


def left_by(tracer, which, seed, clear=0, clear_bytes=0):
    """How much stack one call with one of the secrets takes, written or only reserved; then the stack that was written
    and all registers, after the clearing where one is named. All else is the same."""
    frame = Inputs(tracer.call, SECRETS, seed).draw(which)
    stack, data, length, reached, registers = Bytes(), Bytes(), u64(), u64(), ((u64 * 2) * 32)()
    arguments = (u64 * len(frame.registers))(*frame.registers)
    given = (arguments, len(arguments), frame.stack, u64(len(frame.stack)), frame.data, PAINT[0])
    found = (ctypes.byref(stack), ctypes.byref(length), ctypes.byref(reached), registers, ctypes.byref(data))
    if tracer.library.probe_left(u64(tracer.entry), u64(clear), u64(clear_bytes), *given, *found):
        raise Stopped("the emulator stops")
    if not clear:
        tracer.accept(frame, registers[0][0], data)
    others = b"".join(bytes(value) for number, value in enumerate(registers) if number != STACK_POINTER)
    written = ctypes.string_at(stack, length.value).lstrip(PAINT)
    return max(reached.value, len(written)), written, others


def stack_of(library, image, call, seed):
    """Bytes of stack that one call takes."""
    return left_by(Tracer(library, image, call, seed), 2, seed)[0]


def measure(library, image, call, seed):
    """What one call leaves as it is, and cleared."""
    tracer = Tracer(library, image, call, seed)
    (taken, *left), (_, *left_too) = (left_by(tracer, which, seed) for which in (2, 3))
    pairs = zip(reversed(b"".join(left)), reversed(b"".join(left_too)))
    cleared = b""
    for clearing in (CLEAR, CLEAR_OF):
        _, stack, registers = left_by(tracer, 2, seed, image.entry(clearing), taken)
        cleared += stack + registers
    return Left(taken, sum(one != other for one, other in pairs), sum(byte != 0 for byte in cleared))
