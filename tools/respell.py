#!/usr/bin/env python3
"""Spells this repository's own definitions, lemmas, fields and constructors as today's Rattle does: words in snake case.

usage: tools/respell.py        at the top, once, after Rattle's own port.py

camelCase becomes snake_case; in definitions, fields and constructors a dash becomes an underscore. Types and facts keep
their capitals, and a lemma keeps the dash that joins two names. A name keeps its spelling where the kit's library has it
too. Names of src/ and exported names stay. It prints what it left and why.
"""
import collections
import glob
import os
import re
import subprocess
import sys

# The kit that `rt` is of.
KIT = os.path.dirname(subprocess.run(["rt", "doc"], capture_output=True, text=True, check=True).stdout.strip())
SIGNATURE = re.compile(r"^(?:(?:abbrev|unfoldable|pub|data|record) )*([^\s:(){}]+)(?: \([^)]*\)| \{[^}]*\})* :")
INNER = re.compile(r"^ +(?:pub )?([^\s:(){}]+) :")
HEAD = re.compile(r"^(?:(?:abbrev|unfoldable|pub) )*(data|record) ")
# Names that Rattle makes or asks for: goals, invariants, measures, steps of a walk.
MADE = re.compile(r"^(returns|loop|invariant|decreases|overflow|ghost|in|then|else|if|list|Need|Inv)-|-(requires|spec|ensures|inv|Inv|cs|preserved|init|smaller)(-\d+)?$|^\+")
# Where the plain spelling is another thing's.
OTHER = dict(
    blockIn="block_by_row",
    blocksEnd="end_of_blocks",
    carriedOn="carried_further",
    inKeys="among_keys",
    inOrder="converted_in_order",
    isColour="is_a_colour",
    isKnown="is_known_model",
    isMade="is_made_model",
    isOk="is_accepted",
    isSame="is_same_order",
    nameLength="length_of_name",
    noRecord="empty_record",
    putOne="put_byte",
    recordOf="to_record",
    sameBytes="equal_bytes",
    sizeIn="size_within",
    stringBytes="bytes_of_string",
    unitsIn="units_within",
    unitsOf="units_held",
    withName="named_with",
)
TOKEN = re.compile(r"[^\s(){}\[\],;\"`.:=]+")


def antt(where):
    return [f for f in sorted(glob.glob(where, recursive=True)) if "/out/" not in f]


def own_files():
    return antt("crates/*/specs/**/*.antt") + antt("crates/*/proofs/**/*.antt")


def functions_folder(path):
    """Whether a file is of one function's proof."""
    return os.path.basename(path) in ("Proof.antt", "Answers.antt", "Invariants.antt")


def library_names():
    names = set()
    for top in (os.path.join(KIT, "rattle"), os.path.join(KIT, "logic_built")):
        for folder, _, files in os.walk(top):
            for f in files:
                if f.endswith(".antt"):
                    with open(os.path.join(folder, f), encoding="utf-8", errors="replace") as it:
                        for line in it:
                            m = SIGNATURE.match(line) or INNER.match(line)
                            if m:
                                names.add(m.group(1))
    return names


def taken_words(names):
    """For each name, whether its new spelling stands where it would be mistaken: in a definition, a proof, or a file of src/ that cites the name."""
    antt_words, code = set(), {}
    for f in own_files():
        with open(f, encoding="utf-8") as it:
            antt_words.update(re.findall(r"(?<![^\s(){}\[\],;λ])[^\s(){}\[\],;\"`.:=]+(?=[\s(){}\[\],;.:]|$)(?!\.[a-z+])", it.read()))
    for f in sorted(glob.glob("crates/*/src/**/*.rt", recursive=True)):
        with open(f, encoding="utf-8") as it:
            text = it.read()
        bound = set(re.findall(r"\b([a-z_][a-z0-9_]*)\s*:(?!:)", text)) | set(re.findall(r"\blet (?:mut )?([a-z_][a-z0-9_]*)", text))
        code[f] = set(TOKEN.findall(text)), bound
    taken = set()
    for name, new in names.items():
        if new in antt_words or any(name in w and new in bound for w, bound in code.values()):
            taken.add(name)
    return taken


def snake(name, defined):
    name = re.sub(r"([a-z0-9])([A-Z])", lambda m: m.group(1) + "_" + m.group(2).lower(), name)
    return name.replace("-", "_") if defined else name


def find():
    """The names of the repository that are to be turned, and all of its names."""
    turned, everything, folders = {}, set(), set()
    for f in own_files():
        inner = False
        with open(f, encoding="utf-8") as it:
            for line in it:
                m = SIGNATURE.match(line)
                if m:
                    inner = bool(HEAD.match(line))
                    name = m.group(1)
                elif inner and INNER.match(line):
                    name = INNER.match(line).group(1)
                else:
                    if line.strip() and not line.startswith(" "):
                        inner = False
                    continue
                everything.add(name)
                if functions_folder(f):
                    folders.add(name)
                    if not re.search(r"[a-z0-9][A-Z]", name) or "-" in name:
                        continue
                if name[0].isupper() or "◌" in name or MADE.search(name):
                    continue
                defined = m is None or inner or re.match(r"(abbrev|unfoldable) ", line)
                if re.search(r"[a-z0-9][A-Z]", name) or defined and "-" in name:
                    turned[name] = turned.get(name, False) or bool(defined)
    return turned, everything, folders


def main():
    turned, everything, folders = find()
    library = library_names()
    words = taken_words({n: snake(n, turned[n]) for n in turned})
    to, left = {}, collections.defaultdict(list)
    targets = collections.Counter(snake(n, turned[n]) for n in turned)
    for name in sorted(turned):
        new = snake(name, turned[name])
        if name in library:
            left["the library has it"].append(name)
            continue
        if "-" in name and name in folders:
            left["a goal may have it"].append(name)
            continue
        taken = targets[new] > 1 or name in words
        if taken and "-" in name:
            left["its new spelling is taken"].append(name)
            continue
        if taken:
            new = OTHER[name]
            if new in everything | set(to.values()) or targets[new] or taken_words({name: new}):
                sys.exit(f"{new} for {name} is taken too")
            left["another name, as its new spelling is taken"].append(name + " -> " + new)
        to[name] = new
    if "--dry" in sys.argv:
        for why in left:
            print(f"{why} ({len(left[why])}): {', '.join(left[why])}")
        print(len(to))
        return
    turn = lambda m: to.get(m.group(0), m.group(0))
    sources = own_files() + sorted(glob.glob("crates/*/src/**/*.rt", recursive=True)) + sorted(glob.glob("crates/*/must-fail/*.edit"))
    for f in sources:
        with open(f, encoding="utf-8") as it:
            text = it.read()
        new = TOKEN.sub(turn, text)
        if new != text:
            with open(f, "w", encoding="utf-8") as it:
                it.write(new)
    for why in left:
        print(f"{why} ({len(left[why])}): {', '.join(left[why])}")
    with open("tools/respelled.tsv", "w", encoding="utf-8") as it:
        it.writelines(f"{a}\t{b}\n" for a, b in sorted(to.items()))


main()
