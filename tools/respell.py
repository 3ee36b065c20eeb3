#!/usr/bin/env python3
"""Brings the repository's own definitions and lemmas to snake case, as port.py does those that a library shares.

usage: tools/respell.py            at the top of the repository, after port.py: rewrites crates/ and tells what it renamed

A name that specs/ or proofs/ of a crate defines is respelled where it begins with a small letter: bytesOf and
add-count become bytes_of and add_count. Names that Rattle makes, those of the libraries, strings and the code of src/ keep theirs.
"""
import os
import re
import sys

SPLIT = re.compile(r"""([\s(){}\[\],;.:"`]+)""")
DEFINES = re.compile(r"^\s*(?:abbrev pub |unfoldable pub |abbrev |unfoldable |pub )*([a-z][^\s(){}\[\],;.:\"]*)(?: [a-z][^\s(){}\[\],;.:\"]*)* :(?: |$)")
# names that Rattle makes, which proofs define
MADE = {"invariant-loop", "decreases-loop"}
# a name that two others would have: the lemma gets an ending
TOLD_APART = {
    "toArith-keeps": "to_arith_keeps_lem",
    "in_use": "in_use_lem",
    "feed-words": "fed_words",
    "finish-words": "finished_words",
}


def files(root):
    for folder, dirs, names in os.walk(os.path.join(root, "crates")):
        dirs[:] = sorted(d for d in dirs if d != "out")
        for name in sorted(names):
            if name.endswith((".rt", ".antt")):
                yield os.path.join(folder, name)


def snake(name):
    parts = re.sub(r"([a-z0-9])([A-Z])", lambda m: m.group(1) + "_" + m.group(2).lower(), name)
    return parts.replace("-", "_")


def read(path):
    with open(path, encoding="utf-8") as f:
        return f.read()


def defined(texts):
    """The crates' own names, and those that Rattle makes or that come from a library."""
    own, made = set(), set(MADE)
    for path, text in texts.items():
        if not path.endswith(".antt"):
            continue
        for line in text.splitlines():
            found = DEFINES.match(line)
            if found and not line.lstrip().startswith("--"):
                own.add(found.group(1))
        own.update(re.findall(r"(?<=[\w'] as )([a-z][^\s(){}\[\],;.:\"]*)", text))
        for module, names in re.findall(r"^(?:pub )?use ([^\s{]+)\.\{([^}]*)\}", text, re.M):
            if not module.startswith("Rattle.") or module.startswith("Rattle.std."):
                made.update(n.split(" as ")[0].strip() for n in names.split(","))
    return own, made


def respelled(line, rename):
    """A line with the names that have new ones; what stands behind a dot is a step or a field, and never a lemma told apart."""
    comment = re.search(r"(?:^|\s)(?:--|//) ", line)
    code, said = (line[: comment.start()], line[comment.start() :]) if comment else (line, "")
    words = SPLIT.split(code)
    for i, word in enumerate(words):
        if word in rename:
            words[i] = snake(word) if i and words[i - 1].endswith(".") else rename[word]
    told = SPLIT.split(said)
    told = [rename.get(t, t) if "-" not in t else t for t in told]
    return "".join(words + told)


def main():
    root = os.getcwd()
    texts = {p: read(p) for p in files(root)}
    if not texts:
        sys.exit("respell: no file of crates/ here")
    own, made = defined(texts)
    rename = {n: snake(n) for n in own if snake(n) != n}
    kept = sorted(n for n in rename if n in made)
    for n in kept:
        del rename[n]
    rename.update(TOLD_APART)
    for old in sorted(rename):
        if "-" in old and any(rename.get(n, n) == rename[old] for n in own if n != old):
            rename[old] += "_lem"
    taken = {}
    for old in own:
        taken.setdefault(rename.get(old, old), []).append(old)
    for new, olds in sorted(taken.items()):
        if len(olds) > 1:
            sys.exit(f"respell: {', '.join(sorted(olds))} would all be {new}")
    print(f"respell: {len(rename)} names; kept, since Rattle or a library has them: {', '.join(kept)}")
    for path, text in texts.items():
        new = "\n".join(respelled(line, rename) for line in text.split("\n"))
        if new != text:
            with open(path, "w", encoding="utf-8") as f:
                f.write(new)


if __name__ == "__main__":
    main()
