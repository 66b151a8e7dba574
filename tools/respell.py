#!/usr/bin/env python3
"""Brings this repository's own definitions, lemmas and fields to the library's spelling: words in snake case, types in camel case.

usage: tools/respell.py [--check]

Run it once, at the top, straight after port.py. It reads the names that the files of specs/ and proofs/*.antt declare, and writes each
as today's library would: `mostStops` is `most_stops`, `few-runs` is `few_runs`. A dash stays where it joins two names of functions, as in
`length-filled`. Functions of src/, exported C names, strings, inputs and outputs keep their names. It prints each pair, and each new name
that was in use before (`falls together`), and then writes the files in place. --check only prints.
"""

import os
import re
import sys

TOP = "crates"
TOKEN = re.compile(r"[^\s(){}.;,@\"«»\[\]\\`:|]+")
STRING = re.compile(r'"(?:[^"\\]|\\.)*"|' + TOKEN.pattern)
DECLARED = re.compile(r"^\s*(?:(?:unfoldable|abbrev|pub|private)\s+)*(?:(record|data)\s+)?(?:pub\s+)?([^\s:(){}.;,=]+)((?:\s+[({][^=]*)?)\s*:(?!:)")
# Words of std whose names a lemma's dash may join.
STD = set("length append take drop set sum min max map filter reverse replicate get_or".split())
# What a plain respelling would make of these is a name in use, or says too little.
BY_HAND = {
    "code-length": "code_length_lem",
    "day-tables": "day_tables_lem",
    "first-turn": "first_turn_lem",
    "fresh-cell": "fresh_cell_lem",
    "is-entry": "is_entry_lem",
    "judged-both": "judged_both_lem",
    "label-bytes": "label_bytes_lem",
    "labels-of": "labels_of_lem",
    "labels-read": "labels_read_lem",
    "line-end": "line_end_lem",
    "long-tables": "long_tables_lem",
    "over-limit": "over_limit_lem",
    "pivot-byte": "pivot_byte_lem",
    "pivot-of": "pivot_of_lem",
    "ride-of": "ride_of_lem",
    "seek-in": "seek_in_lem",
    "set-of": "set_of_lem",
    "sum-from": "sum_from_lem",
    "word-at": "word_at_lem",
    "is_digit": "is_digit_lem",
    "no_line": "no_line_lem",
    "out_of_range": "beyond_range",
    "same_stop": "equal_stops",
    "stop-of": "stop_told",
    "place-of": "place_told",
    "no-journey": "without_journey",
    "is-code": "is_code_bytes",
    "inForce": "in_force_of",
}


def files(ending):
    for folder, dirs, names in os.walk(TOP):
        dirs[:] = sorted(d for d in dirs if d != "out")
        for name in sorted(names):
            if name.endswith(ending):
                yield os.path.join(folder, name)


def read(path):
    with open(path, encoding="utf-8") as f:
        return f.read()


def snake(word):
    word = re.sub(r"(?<=[a-z0-9])([A-Z])", lambda m: "_" + m[1].lower(), word)
    return word[0].lower() + word[1:] if "-" in word or "_" in word else word


def is_of_functions(path):
    """A file of definitions: what it declares may be joined by a dash."""
    return "/specs/" in path and not path.endswith("Laws.antt")


def declared():
    """The declared names, each with the files that declare it; and those that are functions."""
    names, functions = {}, set()
    for path in files(".antt"):
        if re.search(r"/proofs/.*(Proof|Invariants|Answers)\.antt$|/Lib\.antt$", path):
            continue
        depth_where = False
        for line in read(path).split("\n"):
            if re.match(r"\s*(--|use |pub use |let |in |λ|module |rw |elim )", line):
                continue
            m = DECLARED.match(line)
            if not m or m[1] or not re.match(r"[a-zA-Z]", m[2]):
                continue
            if re.match(r"\s*[({]", line):
                continue
            names.setdefault(m[2], set()).add(path)
            if is_of_functions(path) and not line.startswith(" "):
                functions.add(m[2])
    return names, functions


def imported():
    """Names that some file brings from a library: they are not ours to rename."""
    found = set()
    for path in list(files(".antt")) + list(files(".rt")):
        for m in re.finditer(r"use\s+((?:Rattle\.std|mathlib|lib|borrow|native|Prim|denote|mir|seplogic)[\w.+-]*)\.\{([^}]*)\}", read(path)):
            found |= {it.split(" as ")[0].strip() for it in m[2].split(",")}
    return found


def pairs():
    names, functions = declared()
    library = imported()
    known = STD | {snake(f).replace("-", "_") for f in functions} | functions
    out = {}
    for name in sorted(names):
        if name in library or (name[0].isupper() and "-" not in name):
            continue
        if name in BY_HAND:
            out[name] = BY_HAND[name]
            continue
        parts = name.split("-")
        if len(parts) > 1 and all(p in known and not p[0].isupper() for p in parts):
            new = "-".join(snake(p) for p in parts)
        else:
            new = snake(name).replace("-", "_")
            new = new[0].lower() + new[1:]
        if new != name:
            out[name] = new
    return out, names


# port.py makes one name of two in these crates.
BY_CRATE = {
    "journeys": {"or_else": "or_then"},
    "example/specs/CaseTests.antt": {"or_else": "or_then"},
    "example/specs/CasesLaws.antt": {"or_else": "or_then"},
    "tables": {"number_of": "number_told"},
    "verdict": {"number_of": "number_told"},
    "asks": {"number_of": "number_told"},
}


def turned(text, new, is_antt):
    """The text with each name in its new spelling; in comments only where it is quoted, and in no string."""
    lines = []
    for line in text.split("\n"):
        code, mark, comment = line, "", ""
        at = re.search(r"(?<!\S)--(?!>)", line) if is_antt else re.search(r"(?<!\S)//", line)
        if at:
            code, mark, comment = line[: at.start()], at.group(), line[at.end() :]
        code = STRING.sub(lambda m: m[0] if m[0].startswith('"') else new.get(m[0], m[0]), code)
        comment = re.sub(r"`([^`]*)`", lambda m: "`" + TOKEN.sub(lambda n: new.get(n[0], n[0]), m[1]) + "`", comment)
        lines.append(code + mark + comment)
    return "\n".join(lines)


def main():
    check = "--check" in sys.argv
    new, names = pairs()
    used = set()
    for path in list(files(".antt")) + list(files(".rt")):
        for line in read(path).split("\n"):
            line = re.sub(r"(?<!\S)(--|//).*", "", line)
            used |= set(TOKEN.findall(line))
    for name, to in sorted(new.items()):
        print(f"{name} -> {to}")
    together = {}
    for name, to in new.items():
        together.setdefault(to, []).append(name)
    for to, froms in sorted(together.items()):
        if len(froms) > 1 or to in used:
            print(f"falls together: {to}: {' '.join(froms)}{' (in use)' if to in used else ''}")
    if check:
        return
    for path in files(".antt"):
        text = read(path)
        out = turned(text, {**new, **BY_CRATE.get(path.split("/")[1], {}), **BY_CRATE.get(path.partition("/")[2], {})}, True)
        if out != text:
            open(path, "w", encoding="utf-8").write(out)
    # A function of src/ keeps its name, also where a lemma that falls together with a definition gets another.
    functions = {it for path in files(".rt") for it in re.findall(r"\bfn (\w+)", read(path))}
    for path in list(files(".rt")) + list(files(".edit")):
        text = read(path)
        out = turned(text, {k: v for k, v in new.items() if k not in functions}, False)
        if out != text:
            open(path, "w", encoding="utf-8").write(out)


if __name__ == "__main__":
    main()
