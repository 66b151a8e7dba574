#!/usr/bin/env python3
"""Counts, in crates/*/src and crates/*/proofs, the places that docs/DESIGN-PASS.md speaks of, a line for each count.

usage: tools/places.py [-v]     -v prints each place under its count
"""

import collections
import glob
import os
import re
import sys

os.chdir(os.path.join(os.path.dirname(os.path.abspath(__file__)), ".."))
SHOWN = "-v" in sys.argv[1:]
NONE = r"(?:No|Bad|Missing|Nothing|Nowhere|Other|Failed|Cut|Taken|Refused|NotInForce|Direct|BadAt|Unfinished|Done)"


def count(name, places):
    print(f"{len(places):5}  {name}")
    if SHOWN:
        for place in places:
            print(f"         {place}")


sources = {path: open(path, encoding="utf-8").read() for path in sorted(glob.glob("crates/*/src/*.rt"))}


def crate(path):
    return path.split("/")[1]


def functions(path, text):
    """Yields each function's name, parameters, contract and body, without comments."""
    text = re.sub(r"//[^\n]*", "", text)
    for it in re.finditer(r"^( *)(?:pub )?(?:extern \"C\" )?fn (\w+)(?:<[^(]*>)?\(", text, re.M):
        end = text.find(f"\n{it[1]}}}\n", it.end())
        whole = text[it.start() : end]
        cut = re.search(rf"^{it[1]}\{{$", whole, re.M)
        head, body = (whole[: cut.start()], whole[cut.end() :]) if cut else (whole.split("{", 1) + [""])[:2]
        parts = re.split(r"^\s+(?=requires|ensures)", head, flags=re.M)
        yield it[2], parts[0], parts[1:], body


# 1
shaped, kinds = [], []
for path, text in sources.items():
    for it in re.finditer(r"^(?:pub )?enum (\w+) \{\n(.*?)\n\}", text, re.M | re.S):
        cases = re.findall(r"^    (\w+)(\([^\n]*\))?(?: = \d+)?,$", it[2], re.M)
        holds = [bool(case[1]) for case in cases]
        none = any(re.fullmatch(NONE, case[0]) for case in cases)
        (shaped if any(holds) and (none or len(cases) == 2 and not all(holds)) else kinds).append(f"{crate(path)}::{it[1]}")
count("1   enums of our own of the shape of Option or Result, or with a case for none or a refusal", shaped)
count("    other enums", kinds)
numbers = []
for path, text in sources.items():
    inside = re.search(r"^impl Refusal \{\n.*?^\}", text, re.M | re.S)
    numbers += re.findall(r"pub const (\w+): u32 = \d+;", inside[0]) if inside else []
count("    numbers for refusals", numbers)
count("    places that name such a number", [f"{p}: {m}" for p, t in sources.items() for m in re.findall(r"Refusal::[A-Z_]+\b", t)])

# 2
shapes = collections.defaultdict(list)
for path, text in sources.items():
    for name, head, clauses, body in functions(path, text):
        flat = re.sub(r"\s+", " ", body).strip()
        flat = re.sub(r"b?\"[^\"]*\"|\b\d+(?:[ui]\w+)?\b|\b[A-Z][A-Z_0-9]*\b|\b(?:u8|u16|u32|u64|usize)\b|\b[A-Z]\w*(?:::\w+)+", "@", flat)
        if len(flat) > 25:
            shapes[flat].append(f"{crate(path)}::{name}")
twins = [" ".join(sorted(names)) for names in shapes.values() if len(names) > 1]
count("2   groups of functions with one body but for types, numbers, texts and names of constants and variants", twins)

# 3
counted, others, loops = [], [], []
for path, text in sources.items():
    lines = text.split("\n")
    for i, line in enumerate(lines):
        if re.match(r"\s*(?:'\w+: )?for ", line):
            loops.append(f"{path}:{i + 1}")
        it = re.match(r"(\s*)(?:'\w+: )?(?:while (.*)|loop) \{", line)
        if not it:
            continue
        end = next(j for j in range(i + 1, len(lines)) if lines[j].startswith(it[1] + "}"))
        steps = set(re.findall(r"\b(\w+) [+-]= 1;", "\n".join(lines[i + 1 : end])))
        by_hand = it[2] and any(re.search(rf"\b{re.escape(step)}\b", it[2]) for step in steps)
        (counted if by_hand else others).append(f"{path}:{i + 1}:{line.strip()}")
count("3   loops that count an index by hand", counted)
count("    other while and loop", others)
count("    for loops", loops)

# 4
by_hand = []
for path, text in sources.items():
    for name, head, clauses, body in functions(path, text):
        if len(re.findall(r"!= [^{]*\{\s*return false;", body)) > 1 or re.search(r"\b(?:same|lesser|greater)\w*$", name) and "bool" in head + name:
            by_hand.append(f"{crate(path)}::{name} (equality)")
        elif re.search(r"^lesser|^greater", name):
            by_hand.append(f"{crate(path)}::{name} (order)")
        if re.search(r"256 \*|% 256|/ 256", body):
            by_hand.append(f"{crate(path)}::{name} (conversion)")
        if re.search(r"b'0' [+-]|- b'0'", body):
            by_hand.append(f"{crate(path)}::{name} (printing, reading digits)")
count("4   functions that compare, order, convert or print by hand", by_hand)

# 5
facts, pairs = collections.defaultdict(set), collections.defaultdict(set)
for path, text in sources.items():
    for name, head, clauses, body in functions(path, text):
        for clause in clauses:
            it = re.match(r"requires\s*(?:\w+ )?\{ *\(?([A-Z]\w*)", clause)
            if it:
                facts[it[1]].add(f"{crate(path)}::{name}")
        given = re.findall(r"(\w+: &?(?:mut )?[\[\]\w<>]+)", head.split("->")[0])
        for one, two in zip(given, given[1:]):
            pairs[f"{one}, {two}"].add(f"{crate(path)}::{name}")
count("5   facts about values in the requires of three or more functions", [f"{k}: {len(v)}" for k, v in sorted(facts.items(), key=lambda it: -len(it[1])) if len(v) > 2])
count("    pairs of parameters that stand together in three or more functions", [f"{k}: {len(v)}" for k, v in sorted(pairs.items(), key=lambda it: -len(it[1])) if len(v) > 2])

# 8
answers = sorted(glob.glob("crates/*/proofs/**/Answers.antt", recursive=True))
said = {path: open(path, encoding="utf-8").read() for path in answers}
count("8   files of answers", answers)
count("    answers", [f"{p}: {m}" for p, t in said.items() for m in re.findall(r"^pub (\S+) :", t, re.M)])
count("    names of the toolchain's own that answers cite", [f"{p}: {m}" for p, t in said.items() for m in re.findall(r"\S*(?:-raw|slice_known)\S*", t)])
proofs = glob.glob("crates/*/proofs/**/*.antt", recursive=True)
print(f"{sum(open(p, encoding='utf-8').read().count(chr(10)) for p in proofs):5}      lines of proofs/")
print(f"{sum(t.count(chr(10)) for t in sources.values()):5}      lines of src/")
