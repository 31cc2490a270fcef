#!/usr/bin/env python3
"""Counts, in src/ of each crate, the places of the forms that docs/DESIGN-PASS.md speaks of.

  oldforms.py [--list] [DIR]      DIR: a checkout (default: this one); --list prints each place

A count is of text: what it finds is a place to look at.
"""
import collections
import pathlib
import re
import sys

args = [a for a in sys.argv[1:] if a != "--list"]
listed = "--list" in sys.argv[1:]
root = pathlib.Path(args[0]) if args else pathlib.Path(__file__).resolve().parent.parent
sources = sorted(root.glob("crates/*/src/*.rt"))
texts = {p.relative_to(root / "crates"): p.read_text() for p in sources}
FN = re.compile(r"^ *(?:#\[[^\n]*\n *)*(?:pub(?:\(crate\))? )?(?:extern \"C\" )?fn (\w+)(<[^(]*>)?\((.*?)\)(.*?)^( *)\{\n(.*?)^\5\}", re.M | re.S)


def code(text):
    return re.sub(r"//[^\n]*", lambda m: " " * len(m.group(0)), text)


def line(text, at):
    return text.count("\n", 0, at) + 1


found = collections.OrderedDict()


def add(key, path, text, at, what):
    found.setdefault(key, []).append(f"{path}:{line(text, at)} {what}")


def start(key):
    found.setdefault(key, [])


for key in (
    "1a own enums with a case of refusal or absence",
    "1b refusals made with a number",
    "1c refusal numbers as parameters, constants and fields",
    "1d matches whose arm only hands a refusal on",
    "2a functions and types named alike but for a number",
    "3a while loops",
    "4a functions that only cast",
    "4b functions that compare or order values by hand",
    "5a requires clauses in three or more functions",
    "5b parameters together in three or more functions",
    "6a searches by hand in something sorted",
    "6b structs of a buffer with a length beside",
    "7a functions that choose a step by a number",
):
    start(key)

requires = collections.defaultdict(list)
together = collections.defaultdict(list)
for path, raw in texts.items():
    text = code(raw)
    exported = path.parts[0] == "khuyurek"
    for m in re.finditer(r"^(?:pub(?:\(crate\))? )?enum (\w+)[^{]*\{(.*?)^\}", text, re.M | re.S):
        cases = re.findall(r"^    (\w+)", m.group(2), re.M)
        if {"Refused", "Unknown", "Short", "Absent"} & set(cases):
            add("1a own enums with a case of refusal or absence", path, text, m.start(), m.group(1))
    for m in re.finditer(r"\bRefused(?:\(| \{\s*number: )(\d+|[A-Z_]{3,})\b", text):
        add("1b refusals made with a number", path, text, m.start(), m.group(1))
    if not exported:
        for m in re.finditer(r"\b(number|fault|refusal|code): u32\b|^(?:pub )?const [A-Z_]+: u32 = \d{1,2};", text, re.M):
            add("1c refusal numbers as parameters, constants and fields", path, text, m.start(), m.group(0))
    for m in re.finditer(r"Refused ?[({]([^)}]*)[)}] => \{?\s*(?:return )?\w+(?:::\w+)*::Refused ?[({]\s*\1,?\s*[)}]", text):
        add("1d matches whose arm only hands a refusal on", path, text, m.start(), "")
    for m in re.finditer(r"^\s*(?:'\w+: )?while ", text, re.M):
        add("3a while loops", path, text, m.start() + 1, m.group(0).strip())
    for m in FN.finditer(text):
        name, params, tail, body = m.group(1), m.group(3), m.group(4), m.group(6)
        if re.fullmatch(r"\s*\w+ as \w+\s*", body):
            add("4a functions that only cast", path, text, m.start(1), name)
        if re.match(r"(same|is_same|equal|unequal|compare|before|against|less)\w*$", name):
            add("4b functions that compare or order values by hand", path, text, m.start(1), name)
        for r in re.finditer(r"requires(?: \w+)? \{(.*?)\}\n", tail, re.S):
            requires[" ".join(r.group(1).split())].append((path, line(text, m.start(1)), name))
        names = [" ".join(p.split()) for p in re.findall(r"(\w+: [^,]+?)(?:,|$)", params, re.S)]
        for k in (3, 4):
            for i in range(len(names) - k + 1):
                together[", ".join(names[i:i + k])].append((path, line(text, m.start(1)), name))
        if re.search(r"match (?:step|which|turn|stage|phase|k|field|position)\b", body):
            add("7a functions that choose a step by a number", path, text, m.start(1), name)
    for m in re.finditer(r"while (?:low|lo|left|first) < (?:high|hi|right|last)", text):
        add("6a searches by hand in something sorted", path, text, m.start(), m.group(0))
    for m in re.finditer(r"^(?:pub(?:\(crate\))? )?struct (\w+)[^{;]*\{(.*?)^\}", text, re.M | re.S):
        if re.search(r": \[\w+; ", m.group(2)) and re.search(r"\b(len|length|used|count|filled|size): usize", m.group(2)):
            add("6b structs of a buffer with a length beside", path, text, m.start(), m.group(1))

names = collections.defaultdict(set)
for path, raw in texts.items():
    for m in re.finditer(r"^\s*(?:pub(?:\(crate\))? )?(?:fn|enum|struct) (\w+)", code(raw), re.M):
        names[(path.parts[0], re.sub(r"(8|16|32|64)(?=_|$)", "N", m.group(1)))].add((m.group(1), str(path)))
for (crate, key), set_ in sorted(names.items()):
    if len({n for n, _ in set_}) > 1 and "N" in key:
        found["2a functions and types named alike but for a number"].append(f"{crate} " + ", ".join(sorted(n for n, _ in set_)))
for clause, places in sorted(requires.items()):
    if len(places) >= 3:
        found["5a requires clauses in three or more functions"].append(f"{places[0][0]} {clause}: " + ", ".join(n for _, _, n in places))
for params, places in sorted(together.items()):
    crates = {p.parts[0] for p, _, _ in places}
    if len(places) >= 3:
        found["5b parameters together in three or more functions"].append(f"{'/'.join(sorted(crates))} {params}: " + ", ".join(n for _, _, n in places))

for key, places in found.items():
    print(f"{len(places):5}  {key}")
    if listed:
        for p in places:
            print(f"         {p}")
