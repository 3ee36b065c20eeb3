"""A call and its arguments, drawn anew for each run: its secrets are fixed, their shares and all fresh words are uniform."""
import random
import struct
from dataclasses import dataclass
from typing import Any

DATA = 0x20000000
IN_REGISTERS = 6
FORMAT = {8: "B", 32: "I"}


@dataclass(frozen=True)
class Secret:
    """Words that each run splits into so many shares, by XOR or by sum. With one share the call gets them in the clear."""

    name: str
    shares: int
    words: int = 1
    width: int = 32
    by_sum: bool = False

    def split(self, word, source):
        masks = [source.getrandbits(self.width) for _ in range(self.shares - 1)]
        for mask in masks:
            word = (word - mask) % (1 << self.width) if self.by_sum else word ^ mask
        return [word, *masks]

    def value(self, which, source):
        """Secret 0 is all zeros, 1 all ones, the others are random."""
        ends = [0, (1 << self.width) - 1]
        return [ends[which] if which < 2 else source.getrandbits(self.width) for _ in range(self.words)]


@dataclass(frozen=True)
class Given(Secret):
    """A secret whose values are these."""

    values: tuple[bytes, ...] = ()

    def value(self, which, source):
        return list(self.values[which])


@dataclass(frozen=True)
class Number:
    """A plain number."""

    number: int

    def place(self, frame):
        frame.number(self.number)


@dataclass(frozen=True)
class FreshWord:
    """A fresh word, as a number."""

    def place(self, frame):
        frame.number(frame.source.getrandbits(32))


@dataclass(frozen=True)
class Share:
    """One share of a secret of one word, as a number."""

    secret: Secret
    which: int

    def place(self, frame):
        frame.number(frame.shares[self.secret][0][self.which])


@dataclass(frozen=True)
class Shares:
    """A slice of all shares: word 0 share 0, word 0 share 1, and so on."""

    secret: Secret

    def bytes(self):
        return self.secret.words * self.secret.shares * self.secret.width // 8

    def content(self, frame):
        flat = [share for word in frame.shares[self.secret] for share in word]
        return struct.pack(f"<{len(flat)}{FORMAT[self.secret.width]}", *flat)

    def place(self, frame):
        frame.slice(self.content(frame), self.secret.words * self.secret.shares)


@dataclass(frozen=True)
class SharesByValue(Shares):
    """The same as a struct that is passed by value, of so many words, the rest 0."""

    words: int

    def place(self, frame):
        frame.stack += self.content(frame).ljust(4 * self.words, b"\0")


@dataclass(frozen=True)
class OneOfEach(Shares):
    """A slice of one share of each word."""

    which: int

    def content(self, frame):
        return bytes(word[self.which] for word in frame.shares[self.secret])

    def place(self, frame):
        frame.slice(self.content(frame), self.secret.words)


@dataclass(frozen=True)
class BytesByValue:
    """Plain bytes of a struct that is passed by value."""

    content: bytes

    def place(self, frame):
        frame.stack += self.content


@dataclass(frozen=True)
class FreshWords:
    """A slice of fresh words."""

    count: int

    def bytes(self):
        return 4 * self.count

    def place(self, frame):
        frame.slice(frame.source.randbytes(self.bytes()), self.count)


@dataclass(frozen=True)
class Text:
    """A slice of these bytes."""

    content: bytes

    def place(self, frame):
        frame.slice(self.content, len(self.content))


@dataclass(frozen=True)
class Room:
    """A slice of zeros, to be written."""

    count: int
    width: int = 32

    def place(self, frame):
        frame.slice(bytes(self.count * self.width // 8), self.count)


@dataclass(frozen=True)
class Result:
    """Where the call is to write a struct that it hands back; its first word is the number."""

    words: int

    def place(self, frame):
        frame.number(frame.memory(bytes(4 * self.words)))


@dataclass(frozen=True)
class Call:
    """A function with its arguments, and what is expected of it. README.md has the meaning of each."""

    name: str
    function: str
    arguments: tuple[Any, ...]
    quick: int = 3000
    deep: int = 20000
    visits: int = 0
    sample: int = 0
    number: int | None = None
    hands_back: Room | None = None
    splits: Share | Shares | None = None
    compares: bool = False
    leaves: bool = False
    leaks: bool = False


class Frame:
    """What one run is given: numbers in registers and on the stack, and the memory of its slices."""

    def __init__(self, shares, source):
        self.shares, self.source = shares, source
        self.registers, self.stack, self.data, self.offsets = [], b"", b"", {}

    def number(self, number):
        if len(self.registers) < IN_REGISTERS:
            self.registers.append(number)
        else:
            self.stack += struct.pack("<Q", number)

    def memory(self, content):
        address = DATA + len(self.data)
        self.data += content + bytes(-len(content) % 64)
        return address

    def slice(self, content, length):
        self.number(self.memory(content))
        self.number(length)


class Inputs:
    """The frames of a call, for each of the secrets."""

    def __init__(self, call, secrets, seed):
        self.call, self.source = call, random.Random(seed)
        named = {argument.secret for argument in call.arguments if isinstance(argument, (Share, Shares))}
        fixed = random.Random(seed + 1)
        self.values = [{secret: secret.value(which, fixed) for secret in sorted(named, key=lambda s: s.name)} for which in range(secrets)]

    def draw(self, which):
        shares = {secret: [secret.split(word, self.source) for word in words] for secret, words in self.values[which].items()}
        frame = Frame(shares, self.source)
        for argument in self.call.arguments:
            frame.offsets[argument] = len(frame.data)
            argument.place(frame)
        frame.data += bytes(-len(frame.data) % 4096 or 4096 * (not frame.data))
        return frame
