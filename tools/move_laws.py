#!/usr/bin/env python3
"""Moves the files of laws of the named crates from specs/ to proofs/, and every line that names them.

usage: tools/move_laws.py CRATE[:FILE,FILE] ..

An edit of a definition is refused by the theorems that rest on it; where they stand in specs/, rt takes the edit for one that cannot be read.
The statements are unchanged. FILE leaves out a file of laws that a definition rests on.
"""

import os
import re
import subprocess
import sys


def main():
    moved = {}
    for word in sys.argv[1:]:
        crate, _, stay = word.partition(":")
        specs, proofs = f"crates/{crate}/specs", f"crates/{crate}/proofs"
        names = [f[:-5] for f in sorted(os.listdir(specs)) if f.endswith("Laws.antt") and f[:-5] not in stay.split(",")]
        os.makedirs(proofs, exist_ok=True)
        lib = open(f"{specs}/Lib.antt", encoding="utf-8").read().split("\n")
        order = [re.match(r"pub mod (\w+)", l)[1] for l in lib if re.match(r"pub mod (\w+)", l)]
        for name in names:
            subprocess.run(["git", "mv", f"{specs}/{name}.antt", f"{proofs}/{name}.antt"], check=True)
            moved[(crate, name)] = True
        open(f"{specs}/Lib.antt", "w", encoding="utf-8").write("\n".join(l for l in lib if not (re.match(r"pub mod (\w+)", l) and re.match(r"pub mod (\w+)", l)[1] in names)))
        old = open(f"{proofs}/Lib.antt", encoding="utf-8").read() if os.path.exists(f"{proofs}/Lib.antt") else ""
        open(f"{proofs}/Lib.antt", "w", encoding="utf-8").write(old + "".join(f"pub mod {n}\n" for n in order if n in names))
    for folder, dirs, files in os.walk("crates"):
        dirs[:] = [d for d in dirs if d != "out"]
        for f in files:
            path = f"{folder}/{f}"
            if not f.endswith((".rt", ".antt", ".edit")):
                continue
            text = open(path, encoding="utf-8").read()
            out = text
            for crate, name in moved:
                out = re.sub(rf"Rattle\.{crate}\.specs\.{name}(?=\W)", f"Rattle.{crate}.proofs.{name}", out)
                if f.endswith(".edit") and path.split("/")[1] == crate:
                    out = out.replace(f"file: specs/{name}.antt", f"file: proofs/{name}.antt")
            if out != text:
                open(path, "w", encoding="utf-8").write(out)


if __name__ == "__main__":
    main()
