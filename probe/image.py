"""A compiled archive or object as one image that the emulator can load, and where its functions are."""
import bisect
import os
import struct
import subprocess
import sys
import tempfile

BASE = 0x400000
LINKER = "x86_64-linux-gnu-ld"
LOAD, SYMBOLS, FUNCTION = 1, 2, 2  # ELF: a segment to load, a table of symbols, a symbol that is a function


class Image:
    """The bytes from BASE on, and the functions as sorted triples of address, name and size."""

    def __init__(self, file):
        elf = linked(file)
        self.code = with_segments(elf)
        self.functions = sorted(functions_of(elf))

    def exported(self):
        """The names of the functions that users call."""
        return {name for _, name, _ in self.functions if name.startswith("flamivorse_")}

    def entry(self, function):
        return self.span(function)[0]

    def span(self, function):
        """Where a function begins and ends; nowhere where there is none of this name."""
        spans = ((address, address + size) for address, name, size in self.functions if name == function)
        return next(spans, (None, None))

    def place(self, address):
        """The function and the offset in it, for people."""
        at = bisect.bisect_right(self.functions, (address, "\x7f")) - 1
        return f"{self.functions[at][1]}+{address - self.functions[at][0]:#x}" if at >= 0 else hex(address)


def linked(file):
    """All of the archive and nothing else: a function that it has not is an error."""
    with tempfile.TemporaryDirectory() as folder:
        out = os.path.join(folder, "image")
        layout = ["-m", "elf_x86_64", "-static", "-e", "0", "-z", "max-page-size=4096", f"-Ttext-segment={BASE:#x}"]
        done = subprocess.run([LINKER, *layout, "--whole-archive", file, "-o", out], check=False)
        if done.returncode:
            sys.exit(f"probe: {file} does not link by itself")
        with open(out, "rb") as elf:
            return elf.read()


def with_segments(elf):
    offset, = struct.unpack_from("<Q", elf, 32)
    size, number = struct.unpack_from("<HH", elf, 54)
    headers = [struct.unpack_from("<IIQQQQQQ", elf, offset + i * size) for i in range(number)]
    loads = [header for header in headers if header[0] == LOAD]
    end = max(address + in_memory for _, _, _, address, _, _, in_memory, _ in loads)
    code = bytearray((end - BASE + 4095) & ~4095)
    for _, _, start, address, _, in_file, _, _ in loads:
        code[address - BASE : address - BASE + in_file] = elf[start : start + in_file]
    return bytes(code)


def functions_of(elf):
    offset, = struct.unpack_from("<Q", elf, 40)
    size, number = struct.unpack_from("<HH", elf, 58)
    sections = [struct.unpack_from("<IIQQQQIIQQ", elf, offset + i * size) for i in range(number)]
    found = []
    for section in sections:
        if section[1] != SYMBOLS:
            continue
        names = sections[section[6]][4]
        for at in range(section[4], section[4] + section[5], 24):
            name, info, _, defined, address, length = struct.unpack_from("<IBBHQQ", elf, at)
            if info & 15 == FUNCTION and defined:
                found.append((address, elf[names + name : elf.index(b"\0", names + name)].decode(), length))
    return found
