"""The shared library as Python loads it: tags under a key in shares are those of Python's own hmac, in one call and
with a state that goes by value; an empty slice is null; what cannot be done is refused by its number. What is declared
here is as in include/flamivorse.h.

Usage: python3 tests/loaded.py libflamivorse.so
"""
import ctypes
import hmac
import os
import sys
from ctypes import c_char_p, c_size_t, c_uint8, c_uint32, c_uint64

SHARES, KEY_BLOCK_WORDS, CHAIN_WORDS, BLOCK_BYTES, TAG_BYTES = 4, 16, 128, 64, 32
KEY_LIMIT, MESSAGE_LIMIT = 1024, 65536
DONE, SHARE_COUNT, OUTPUT_LENGTH, TOO_LONG, SUPPLY_SHORT, STATE_UNFIT = 0, 1, 3, 4, 5, 6


class Answer(ctypes.Structure):
    _fields_ = [("number", c_uint32), ("drawn", c_uint64)]


class State(ctypes.Structure):
    _fields_ = [("n", c_size_t), ("bytes", c_uint64), ("drawn", c_uint64), ("finished", c_uint32), ("hash", c_uint32),
                ("inner", c_uint32 * CHAIN_WORDS), ("outer", c_uint32 * CHAIN_WORDS), ("tail", c_uint8 * BLOCK_BYTES)]


class Streamed(ctypes.Structure):
    _fields_ = [("number", c_uint32), ("drawn", c_uint64), ("state", State)]


WORDS, BYTES = (ctypes.POINTER(c_uint32), c_size_t), (c_char_p, c_size_t)
TAG = (ctypes.POINTER(c_uint8), c_size_t)
CALLS = {
    "sha256_split_key_words": (Answer, c_size_t, c_size_t),
    "sha256_split_key": (Answer, c_size_t, *BYTES, *WORDS, *WORDS),
    "hmac_sha256_words": (Answer, c_size_t, c_size_t),
    "hmac_sha256": (Answer, c_size_t, *WORDS, *BYTES, *TAG, *WORDS),
    "hmac_sha256_start_words": (Answer, c_size_t),
    "hmac_sha256_start": (Streamed, c_size_t, *WORDS, *WORDS),
    "hmac_sha256_feed_words": (Answer, State, c_size_t),
    "hmac_sha256_feed": (Streamed, State, *BYTES, *WORDS),
    "hmac_sha256_finish_words": (Answer, State),
    "hmac_sha256_finish": (Streamed, State, *TAG, *WORDS),
    "clear_stack": (None,),
}


class Library:
    """The calls of the library by their names without flamivorse_."""

    def __init__(self, file):
        loaded = ctypes.CDLL(file)
        for name, (result, *arguments) in CALLS.items():
            call = loaded[f"flamivorse_{name}"]
            call.restype, call.argtypes = result, arguments
            setattr(self, name, call)


def fresh(need):
    """As many random words as a query asks for, and their number; none are null."""
    expect(need.number, DONE)
    words = (c_uint32 * need.drawn).from_buffer_copy(os.urandom(4 * need.drawn)) if need.drawn else None
    return words, need.drawn


def slice_of(text):
    return text or None, len(text)


def expect(found, wanted):
    if found != wanted:
        raise SystemExit(f"loaded: {found} and not {wanted}")


def split(library, key):
    """The key in shares."""
    shares = (c_uint32 * (SHARES * KEY_BLOCK_WORDS))()
    words = fresh(library.sha256_split_key_words(SHARES, len(key)))
    answer = library.sha256_split_key(SHARES, *slice_of(key), shares, len(shares), *words)
    expect((answer.number, answer.drawn), (DONE, words[1]))
    return shares, len(shares)


def tag_of(library, key, message):
    """The tag in one call."""
    tag = (c_uint8 * TAG_BYTES)()
    words = fresh(library.hmac_sha256_words(SHARES, len(message)))
    answer = library.hmac_sha256(SHARES, *split(library, key), *slice_of(message), tag, len(tag), *words)
    expect((answer.number, answer.drawn), (DONE, words[1]))
    return bytes(tag)


def streamed_tag_of(library, key, pieces):
    """The tag of a message in pieces, and the state after it."""
    tag = (c_uint8 * TAG_BYTES)()
    made = library.hmac_sha256_start(SHARES, *split(library, key), *fresh(library.hmac_sha256_start_words(SHARES)))
    for piece in pieces:
        expect(made.number, DONE)
        words = fresh(library.hmac_sha256_feed_words(made.state, len(piece)))
        made = library.hmac_sha256_feed(made.state, *slice_of(piece), *words)
    words = fresh(library.hmac_sha256_finish_words(made.state))
    made = library.hmac_sha256_finish(made.state, tag, len(tag), *words)
    expect((made.number, made.state.bytes, made.state.finished), (DONE, sum(map(len, pieces)), 1))
    return bytes(tag), made.state


def refusals(library, state):
    """Each refusal has its number, and leaves the tag as it was; the state is a finished one."""
    tag = (c_uint8 * TAG_BYTES)(*range(TAG_BYTES))
    shares = split(library, b"key")
    expect(library.hmac_sha256_words(0, 1).number, SHARE_COUNT)
    expect(library.hmac_sha256_words(SHARES, MESSAGE_LIMIT + 1).number, TOO_LONG)
    expect(library.sha256_split_key_words(SHARES, KEY_LIMIT + 1).number, TOO_LONG)
    expect(library.hmac_sha256(SHARES, *shares, None, 0, tag, len(tag) - 1, None, 0).number, OUTPUT_LENGTH)
    expect(library.hmac_sha256(SHARES, *shares, None, 0, tag, len(tag), None, 0).number, SUPPLY_SHORT)
    expect(library.hmac_sha256_feed(state, None, 0, None, 0).number, STATE_UNFIT)
    expect(bytes(tag), bytes(range(TAG_BYTES)))


def main(file):
    library = Library(file)
    text = bytes(range(256))
    for key, message in [(b"", b""), (b"Jefe", b"what do ya want for nothing?"), (text[:64], text[:55]),
                         (text[:65], text[:63]), (text[:131], text)]:
        right = hmac.new(key, message, "sha256").digest()
        expect(tag_of(library, key, message), right)
        tag, state = streamed_tag_of(library, key, [message[:1], b"", message[1:70], message[70:]])
        expect(tag, right)
    refusals(library, state)
    library.clear_stack()
    print("loaded: the shared library by Python")


main(sys.argv[1])
