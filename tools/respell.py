#!/usr/bin/env python3
"""Brings the repository's own definitions and lemmas to snake case, in specs/, proofs/, contracts and edits.

usage: tools/respell.py [--dry]     at the top of the repository, once, right after the kit's port.py

A name is turned if it is declared in a file of specs/ or proofs/ (a definition, a lemma, a field, a constructor) and holds a dash or, after a
small first letter, a capital: `goodPlan` becomes `good_plan`, `sound-put` becomes `sound_put`. Left as they are: names that the prover makes for
a function's goals, names of the library, types, modules, and all of src/ but its contracts. Names that would fall together are told, and nothing
is written.
"""

import collections
import os
import re
import subprocess
import sys

TOKEN = re.compile(r"(?:((?<=\w\.)|(?<=[\w')]\.))|(?<![A-Za-z0-9_'◌-]))([A-Za-z_][A-Za-z0-9_']*(?:-[A-Za-z0-9_']+)*)(?![A-Za-z0-9_'◌])")
DECLARED = re.compile(r"^\s*(?:(?:pub|abbrev|unfoldable|opaque|private|ruleset)\s+)*([A-Za-z_][A-Za-z0-9_']*(?:-[A-Za-z0-9_']+)*(?:\s+[A-Za-z_][A-Za-z0-9_'-]*)*)\s*:\s+(.*)$")
GHOST = re.compile(r"^\s*(?:ghost\b|requires\b|ensures\b|invariant\b|decreases\b)|^\s*#\[tactic")
# fall together with another name if they are turned as the others are
OTHERWISE = {
    # a lemma beside the definition that it speaks of
    "as-made": "as_made_lem",
    "draws-at": "draws_at_lem",
    "fits_one": "fits_one_lem",
    "good-need": "good_need_lem",
    "is-asked": "is_asked_lem",
    "is_lost": "is_lost_lem",
    "may-fall": "may_fall_lem",
    "needs-at": "needs_at_lem",
    "needs-fit": "needs_fit_lem",
    "not-for": "not_for_lem",
    "not_yet": "not_yet_lem",
    "turned_by": "turned_by_lem",
    "wants-too": "wants_too_lem",
    # a definition beside the field that it reads
    "nextPace": "next_pace_of",
}


def files(*ends):
    out = subprocess.run(["git", "ls-files", "-co", "--exclude-standard", "crates", "assurance"], capture_output=True, text=True, check=True).stdout.split("\n")
    return [f for f in out if f.endswith(ends) and os.path.exists(f)]


def snake(name):
    if name in OTHERWISE:
        return OTHERWISE[name]
    name = name.replace("-", "_")
    return re.sub(r"(?<=[a-z0-9'])([A-Z])", lambda m: "_" + m.group(1).lower(), name)


def wants(name):
    return name in OTHERWISE or "-" in name or (name[0].islower() and re.search("[A-Z]", name) is not None)


def code(line):
    """The line without its comment."""
    at = line.find("-- ")
    if line.startswith("--"):
        return ""
    return line if at < 0 else line[:at]


def declared():
    names = set()
    for f in files(".antt"):
        made = os.path.basename(f) in ("Answers.antt", "Invariants.antt", "Proof.antt")
        for line in open(f, encoding="utf-8"):
            m = DECLARED.match(code(line))
            if not m:
                continue
            for name in m.group(1).split():
                if made and re.search(r"\bgoal\." + re.escape(name) + r"(?![A-Za-z0-9_'-])", m.group(2)):
                    continue
                names.add(name)
    return {n for n in names if wants(n)}


def main(argv):
    turned = {n: snake(n) for n in declared()}
    clash = collections.defaultdict(set)
    for n, to in turned.items():
        clash[to].add(n)
    seen = collections.defaultdict(set)
    for f in files(".antt", ".rt"):
        for line in open(f, encoding="utf-8"):
            part = code(line) if f.endswith(".antt") else (line if GHOST.match(line) else "")
            for m in TOKEN.finditer(part):
                if m.group(1) is None:
                    seen[m.group(2)].add(f)
    bad = 0
    for to, froms in sorted(clash.items()):
        if len(froms) > 1:
            print("fall together:", to, "from", *sorted(froms))
            bad += 1
        if to in seen and to not in turned:
            both = set().union(*(seen[n] for n in froms)) & seen[to]
            if both:
                print("stands already:", to, "for", *sorted(froms), "in", *sorted(both)[:4])
                bad += 1
    if bad or "--dry" in argv:
        print(len(turned), "names,", bad, "that fall together")
        return 1 if bad else 0

    def turn(m):
        name = m.group(2)
        # behind a dot a name with a dash is one that the prover makes, after a step of the code
        if m.group(1) is not None and ("-" in name or "_" in name):
            return name
        return turned.get(name, name)

    count = 0
    for f in files(".antt", ".rt", ".edit"):
        text = open(f, encoding="utf-8").read()
        lines = text.split("\n")
        for i, line in enumerate(lines):
            if f.endswith(".rt") and not GHOST.match(line):
                continue
            lines[i] = TOKEN.sub(turn, line)
        new = "\n".join(lines)
        if new != text:
            count += 1
            with open(f, "w", encoding="utf-8") as out:
                out.write(new)
    print(len(turned), "names turned in", count, "files")
    return 0


if __name__ == "__main__":
    sys.exit(main(sys.argv[1:]))
