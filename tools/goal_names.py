#!/usr/bin/env python3
"""Turns the names of goals and steps in a crate's Answers.antt and Invariants.antt to today's: names of the source keep their underscores.

usage: tools/goal_names.py CRATE..     at the top of the repository, after the kit's port.py

`returns-in-err-goal` becomes `returns-in_err-goal`, `come-down-through-requires` becomes `come_down-through-requires`.
"""

import glob
import os
import re
import subprocess
import sys

TOKEN = re.compile(r"(?<![A-Za-z0-9_'◌-])[A-Za-z_][A-Za-z0-9_']*(?:-[A-Za-z0-9_']+)+(?![A-Za-z0-9_'◌])")
WORDS = ["in_err", "in_ok", "in_default", "invariant_of", "type_inv", "overflow_add", "overflow_sub", "overflow_mul", "overflow_cast"]


def source_names():
    names = set(WORDS)
    for f in glob.glob("crates/*/src/*.rt"):
        for line in open(f, encoding="utf-8"):
            names |= set(re.findall(r"\b[A-Za-z][A-Za-z0-9]*(?:_[A-Za-z0-9]+)+\b", line.split("//")[0]))
    names |= {"is_empty", "is_some", "is_none", "is_ascii_digit", "is_ok", "is_err", "get_mut", "from_residual", "saturating_add", "checked_add", "checked_mul", "unwrap_or", "as_bytes", "write_all", "copy_from_slice"}
    return sorted(names, key=lambda n: (-n.count("_"), n))


def main(argv):
    names = source_names()
    by_dash = [(n.replace("_", "-"), n) for n in names]
    library = {"eq-eqb"}
    for crate in argv:
        for f in glob.glob(f"crates/{crate}/proofs/**/*.antt", recursive=True):
            if os.path.basename(f) not in ("Answers.antt", "Invariants.antt"):
                continue
            text = open(f, encoding="utf-8").read()
            own = set()
            for m in re.finditer(r"(?m)^use (Rattle\.[\w.+]+)\.\{([^}]*)\}", text):
                if not m.group(1).endswith((".Goals", ".Given")):
                    own |= {n.strip() for n in m.group(2).split(",")}

            def turn(m):
                name = m.group(0)
                if name in own or name in library:
                    return name
                for dashed, plain in by_dash:
                    name = re.sub(r"(?<![A-Za-z0-9_'])" + re.escape(dashed) + r"(?![A-Za-z0-9_'])", plain, name)
                return name

            new = "\n".join(l if l.startswith("use ") and ".Goals.{" not in l else TOKEN.sub(turn, l) for l in text.split("\n"))
            if new != text:
                with open(f, "w", encoding="utf-8") as out:
                    out.write(new)
                print(f)
    return 0


if __name__ == "__main__":
    sys.exit(main(sys.argv[1:]))
