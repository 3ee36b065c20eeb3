"""Controls: code that must be flagged, and code that must not, so that a clean answer says something."""
from dataclasses import replace

from calls import COPYING, differing
from inputs import Call, FreshWord, FreshWords, Room, Secret, Share, Shares

X, Y, SUM, CLEAR = Secret("x", 2), Secret("y", 2), Secret("x", 2, by_sum=True), Secret("x", 1)
SHARES_OF_X, SHARES_OF_Y = (Share(X, 0), Share(X, 1)), (Share(Y, 0), Share(Y, 1))
BARE, IN_MEMORY = Share(CLEAR, 0), Shares(CLEAR)
SPLITTING = (IN_MEMORY, Room(2), FreshWords(1))
MASKED_AND = (Shares(X), Shares(Y), FreshWords(1), Room(2))

# controls.s
HAND_WRITTEN = [
    Call("control: AND in the rules' order", "and_safe", MASKED_AND),
    Call("control: AND with its cross terms regrouped", "and_regrouped", MASKED_AND, leaks=True),
    Call("control: Goubin's Boolean to arithmetic", "b2a_safe", (*SHARES_OF_X, FreshWord())),
    Call("control: both shares in one register", "pair", (Shares(X),), leaks=True),
    Call("control: unmasked in a register", "in_register", SHARES_OF_X, leaks=True),
    Call("control: unmasked in memory", "in_memory", (*SHARES_OF_X, Room(1)), leaks=True),
    Call("control: unmasked in a vector", "in_vector", SHARES_OF_X, leaks=True),
    Call("control: unmasked in the carry alone", "carry", (Share(SUM, 0), Share(SUM, 1)), leaks=True),
    Call("control: a bit of the secret in one run of 16", "bias", (*SHARES_OF_X, FreshWords(4)), leaks=True),
    Call("control: a branch by the secret", "branch", SHARES_OF_X, leaks=True),
    Call("control: a comparison that ends at the first difference", "same_early", differing(20), compares=True, leaks=True),
    Call("control: an address by a share", "lookup", (*SHARES_OF_X, Room(16)), leaks=True),
    Call("control: a share that is the value itself", "split_bare", (BARE, Room(2), FreshWords(1)), splits=BARE, leaks=True),
    Call("control: a value split where a register holds it", "split_safe", SPLITTING, splits=IN_MEMORY),
    Call("control: a value that waits on the stack", "split_waiting", SPLITTING, splits=IN_MEMORY, leaks=True),
    Call("control: a value opened after its splitting", "split_opened", SPLITTING, splits=IN_MEMORY, leaks=True),
    Call("control: only the word handed back is open", "open_at_end", (*SHARES_OF_X, Room(1)), hands_back=Room(1)),
    Call("control: another word is open as well", "open_and_more", (*SHARES_OF_X, *SHARES_OF_Y, Room(1)), hands_back=Room(1), leaks=True),
]

# wide_copy.s: the calls that copy chains, as they are made of the archive itself
WIDE = [replace(call, name=f"control: {call.name}, copies of 16 bytes at a time", leaks=True) for call in COPYING]


def trial(leaks):
    """trial.rattle: three calls of the library, built with its veil or with one that adds nothing (see run)."""
    veil = "without" if leaks else "with"
    return [
        Call(f"control: AND {veil} the veil", "trial_and", (Shares(X), Shares(Y), Room(2), FreshWords(1)), number=1, leaks=leaks),
        Call(f"control: add {veil} the veil", "trial_add", (Shares(X), Shares(Y), Room(2), FreshWords(32)), number=32, leaks=leaks),
        Call(f"control: a2b_2 {veil} the veil", "trial_a2b_2", (Share(SUM, 0), Share(SUM, 1), FreshWord()), leaks=leaks),
    ]
