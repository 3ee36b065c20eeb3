"""The calls of the archive: those that work on shares, the long ones first, and the queries, which take no secret."""
import struct
from dataclasses import dataclass, replace

from inputs import BytesByValue, Call, FreshWord, FreshWords, Given, Number, OneOfEach, Result, Room
from inputs import Secret, Share, Shares, SharesByValue, Text

SHARES_LIMIT = 16
SHORT_COUNTS = (1, 2, 4, 8)  # of the short conversion


@dataclass(frozen=True)
class Hash:
    """A hash: the number by which a state names it, the words of its chain, and what a compression draws."""

    name: str
    code: int
    words: int
    draws: int  # for each n(n - 1)
    split_key: str  # the name of its splitting

    def places(self):
        """Of a chain record."""
        return self.words * SHARES_LIMIT

    def compress_words(self, n):
        return self.draws * n * (n - 1)


HASHES = SHA1, SHA256 = Hash("sha1", 0, 5, 5220, "split_key"), Hash("sha256", 1, 8, 9664, "sha256_split_key")
STATE_CHAIN = SHA256.places()  # of a state of either hash
STREAMED = Result(28 + 2 * STATE_CHAIN)  # number, count and state


def pairs(n):
    return n * (n - 1) // 2


def add_words(n):
    return 32 * pairs(n)


def a2b_words(n):
    """By halves, each expanded where n is a power of two, else refreshed by n - 1 words."""
    widened = n if n & (n - 1) == 0 else 2 * (n - 1)
    return 0 if n == 1 else a2b_words(n // 2) + a2b_words(n - n // 2) + widened + add_words(n)


def b2a_words(n):
    return n - 1 + a2b_words(n) + add_words(n) + pairs(n)


def short_words(n):
    return 0 if n == 1 else 3 * n - 2 + 2 * short_words(n - 1)


def call(name, n, arguments, which="", **more):
    """A call with n shares that must be done: the number 0."""
    return Call(f"{name}{which}, {n} shares", f"flamivorse_{name}", (Number(n), *arguments), number=0, **more)


def sampled(n, sample, least):
    """Of a call with so many shares or more, the first visits of each instruction and samples; else every step."""
    return {"visits": 4, "sample": sample} if n >= least else {}


def hmac(sha, n, quick=0, deep=0):
    """The tag of three bytes: four compressions. Its bytes are handed back in the clear, and nothing else may be."""
    key, tag = Secret("key", n, words=16), Room(4 * sha.words, width=8)
    arguments = (Shares(key), Text(b"abc"), tag, FreshWords(4 * sha.compress_words(n)))
    kept = sampled(n, 40009 * n, least=1)
    return call(f"hmac_{sha.name}", n, arguments, hands_back=tag, leaves=n > 1, quick=quick, deep=deep, **kept)


def compress(sha, n, quick=0, deep=0):
    """The chain is a struct passed by value, and the answer (number, count and chain) is written where the first
    argument says."""
    chain, block = SharesByValue(Secret("chain", n, words=sha.words), sha.places()), Secret("block", n, words=16)
    answer, words = Result(4 + sha.places()), FreshWords(sha.compress_words(n))
    kept = {"quick": quick, "deep": deep, **sampled(n, 10007 * n, least=1)}
    name, arguments = f"{sha.name}_compress", (answer, Number(n), chain, Shares(block), words)
    return Call(f"{name}, {n} shares", f"flamivorse_{name}", arguments, number=0, leaves=True, **kept)


def state(sha, n, fed):
    """A fit state after so many bytes, a struct passed by value. Its chains are secrets; the message never is one."""
    drawn, finished = (2 + fed // 64) * sha.compress_words(n), 0
    numbers = BytesByValue(struct.pack("<QQQII", n, fed, drawn, finished, sha.code))
    secrets = (Secret(name, n, words=sha.words) for name in ("inner", "outer"))
    chains = (SharesByValue(secret, STATE_CHAIN) for secret in secrets)
    return numbers, *chains, BytesByValue(bytes(range(fed % 64)).ljust(64, b"\0"))


def streaming(sha, n, quick=0, deep=0):
    """A start; a feed that fills a block and one that does not; a finish. Only its tag is handed back in the clear."""

    def streamed(step, arguments, compressions, which="", **more):
        kept = {"quick": 1000, "deep": 10000}
        if compressions:
            kept = {"quick": quick // compressions, "deep": deep // compressions}
            kept |= sampled(n, compressions * 10007 * n, least=1)
        arguments = (STREAMED, *arguments, FreshWords(compressions * sha.compress_words(n)))
        name = f"hmac_{sha.name}_{step}"
        names = f"{name}{which}, {n} shares", f"flamivorse_{name}"
        return Call(*names, arguments, number=0, leaves=n > 1, **kept, **more)

    tag = Room(4 * sha.words, width=8)
    return [
        streamed("start", (Number(n), Shares(Secret("key", n, words=16))), 2),
        streamed("feed", (*state(sha, n, 60), Text(b"abcde")), 1, ", filling a block"),
        streamed("feed", (*state(sha, n, 60), Text(b"abc")), 0, ", filling none"),
        streamed("finish", (*state(sha, n, 3), tag), 2, hands_back=tag),
    ]


def conversions(n):
    arithmetic, x = Secret("x", n, by_sum=True), Secret("x", n)
    runs = {"quick": 1000 if n < 8 else 400, "deep": 10000 if n < 8 else 4000}
    kept = {**runs, **sampled(n, 2039, least=3)}
    both_ways = [
        call("b2a", n, (Shares(x), Room(n), FreshWords(b2a_words(n))), **kept),
        call("a2b", n, (Shares(arithmetic), Room(n), FreshWords(a2b_words(n))), **kept),
    ]
    if n not in SHORT_COUNTS:
        return both_ways
    words = FreshWords(short_words(n))
    return [*both_ways, call("b2a_short", n, (Shares(x), Room(n), words), **runs, **sampled(n, 2039, least=8))]


def operations(n):
    x, y = Secret("x", n), Secret("y", n)
    return [
        call("add", n, (Shares(x), Shares(y), Room(n), FreshWords(add_words(n))), quick=2000, **sampled(n, 2039, 8)),
        call("and", n, (Shares(x), Shares(y), Room(n), FreshWords(pairs(n)))),
        call("expand", n, (Shares(x), Room(2 * n), FreshWords(n))),
        call("refresh", n, (Shares(x), Room(n), FreshWords(pairs(n)))),
    ]


def splittings(n):
    """These get the secret in the clear. Registers hold it until it is split; what is stored may not depend on it, nor
    the path."""
    value, key = Share(Secret("value", 1), 0), Shares(Secret("key", 1, words=64, width=8))
    arguments = (key, Room(16 * n), FreshWords(16 * (n - 1)))
    return [
        *(call(sha.split_key, n, arguments, splits=key, leaves=True) for sha in HASHES),
        call("split", n, (value, Room(n), FreshWords(n - 1)), splits=value),
    ]


def long_key(sha, n, quick=0, deep=0):
    """A key of 100 bytes: 25 words are split, then hashed by two compressions. Nothing that it stores may depend on the
    key but in shares, and after the splitting no register either."""
    key = Shares(Secret("key", 1, words=100, width=8))
    arguments = (key, Room(16 * n), FreshWords(25 * (n - 1) + 2 * sha.compress_words(n)))
    kept = {"quick": quick, "deep": deep, **sampled(n, 2 * 10007 * n, least=1)}
    return call(sha.split_key, n, arguments, which=", hashing it", splits=key, leaves=True, **kept)


def openings(n):
    """These open what they get, and must be seen to."""
    return [
        call("open_xor", n, (Shares(Secret("x", n)),), leaks=True),
        call("open_sum", n, (Shares(Secret("x", n, by_sum=True)),), leaks=True),
    ]


def two_share_forms():
    by_xor, by_sum = Secret("x", 2), Secret("x", 2, by_sum=True)
    b2a = (Share(by_xor, 0), Share(by_xor, 1), FreshWord())
    a2b = (Share(by_sum, 0), Share(by_sum, 1), FreshWord())
    return [
        Call("a2b_2_record", "flamivorse_a2b_2_record", (*a2b, Room(165)), number=0),
        Call("b2a_2_record", "flamivorse_b2a_2_record", (*b2a, Room(7)), number=0),
        Call("a2b_2", "flamivorse_a2b_2", a2b),
        Call("b2a_2", "flamivorse_b2a_2", b2a),
    ]


def differing(length):
    """Two tags, each of them uniform: the secret is where they differ, nowhere, in the first or last byte, or in all."""
    same, all_over = bytes(length), bytes(range(1, length + 1))
    values = same, b"\1" + same[1:], same[1:] + b"\1", all_over
    difference = Given("difference", 2, words=length, width=8, values=values)
    return OneOfEach(difference, 0), OneOfEach(difference, 1)


def comparing():
    """At the lengths of tags, and at one that takes the code through each of its loops."""
    return [
        Call(f"same_tag, {length} bytes", "flamivorse_same_tag", differing(length), compares=True, leaves=True)
        for length in (20, 32, 39)
    ]


def queries(n):
    """How many words the calls draw."""
    by_count = "split refresh expand and add a2b b2a".split() + ["b2a_short"] * (n in SHORT_COUNTS)
    asked = {name: (Number(n),) for name in by_count}
    for sha in HASHES:
        hmac_name = f"hmac_{sha.name}"
        asked |= {f"{sha.name}_compress": (Number(n),), f"{hmac_name}_start": (Number(n),)}
        asked |= {sha.split_key: (Number(n), Number(64)), hmac_name: (Number(n), Number(3))}
        asked |= {f"{hmac_name}_feed": (*state(sha, n, 60), Number(5)), f"{hmac_name}_finish": state(sha, n, 3)}
    return [
        Call(f"{name}_words, {n} shares", f"flamivorse_{name}_words", arguments, number=0)
        for name, arguments in asked.items()
    ]


def short(n):
    return [one for part in (conversions, operations, splittings, openings) for one in part(n)]


def copying(sha):
    return [
        hmac(sha, 4, quick=40, deep=100),
        hmac(sha, 2, quick=100, deep=400),
        compress(sha, 4, quick=100, deep=500),
        compress(sha, 2, quick=200, deep=2000),
        long_key(sha, 4, quick=40, deep=250),
        long_key(sha, 2, quick=100, deep=1000),
        *streaming(sha, 4, quick=80, deep=500),
        *streaming(sha, 2, quick=200, deep=2000),
    ]


def hashing(sha, n):
    return [hmac(sha, n), *streaming(sha, n), compress(sha, n), long_key(sha, n)]


# The calls that copy whole chains: with a copy of many bytes at a time these very calls must be flagged (controls.py).
COPYING = [*(one for sha in HASHES for one in copying(sha)), compress(SHA1, 3, quick=100, deep=500)]
SHORT = [one for n in (8, 5, 4, 3, 2) for one in short(n)]
# At other counts SHA-256 goes by the additions and ANDs that SHA-1 shows.
LONG = [compress(SHA1, n, quick=40, deep=200) for n in (8, 5)]
CALLS = [*COPYING, *LONG, *SHORT, *two_share_forms(), *comparing()]

# Every call by share count, made once each to see what it leaves behind: nothing, once it is cleared.
EVERY = {n: [*(one for sha in HASHES for one in hashing(sha, n)), *short(n)] for n in (16, 8, 4, 3, 2, 1)}
EVERY[2] += two_share_forms() + comparing()
ONCE = [replace(one, name=f"left by {one.name}", leaks=False) for some in EVERY.values() for one in some]
