#!/usr/bin/env python3
"""Respells the definitions and lemmas of this repository as today's Rattle spells its own. Run once, at the top, after port.py.

usage: python3 tools/respell.py [--show]

Definitions, fields and local names go into snake case; a lemma keeps a dash between two names and has an underscore before a plain word;
a fact is in camel case. What is declared in proofs/F/Proof.antt keeps its name, but for the proof of F itself, which is F_spec. Code,
strings, inputs and outputs are not touched. It prints each old name with its new one (--show: only that, nothing is written).
"""

import collections
import os
import re
import sys

TOKEN = re.compile(r'[^\s(){}\[\].;,@"«»:`]+')
DECLARED = re.compile(r"^\s*((?:(?:abbrev|pub|unfoldable|data|record|mod|module|ruleset|field) )*)([^\s(){}\[\],;.:]+)((?: [({][^=]*[)}])*) :(?: |$)")
ALIAS = re.compile(r"[^\s{,]+ as ([^\s,;}]+)")
HUMPS = re.compile(r"^[a-z][A-Za-z0-9'_]*$")
# Names of one letter with a sign for the step behind it.
SHORT = re.compile(r"^[a-z]S$")
# What the words of the library are called that lemmas of ours are about.
STD = "length map take drop append get_or set replicate reverse concat max min sum filter mod div".split()
# Where the plain spelling is taken by a function, a variable or another name of a file that needs both.
TAKEN = {
    "allTold": "told_all",
    "endedAt": "ended_in",
    "goesOn": "goes_further",
    "inOrder": "stands_in_order",
    "inUse": "used_places",
    "isCut": "is_cut_off",
    "keptStep": "step_of_kept",
    "noMember": "blank_member",
    "noneOver": "over_none",
    "numberSize": "size_of_number",
    "optionalThen": "then_optional",
    "placeAt": "place_standing",
    "plainEnd": "end_plain",
    "plainStep": "step_plain",
    "plusOne": "one_added",
    "sameText": "text_alike",
}

def texts():
    for folder, dirs, files in os.walk("crates"):
        dirs[:] = sorted(d for d in dirs if d != "out")
        for f in sorted(files):
            if f.endswith((".antt", ".rt")):
                yield os.path.join(folder, f)


def snake(name):
    name = re.sub(r"(?<=[a-z0-9])([A-Z]+)(?=[^a-z]|$)", lambda m: "_" + m[0].lower(), name)
    return re.sub(r"(?<=[a-z0-9])([A-Z])", lambda m: "_" + m[0].lower(), name)


def is_proof(path):
    return path.endswith("/Proof.antt")


def declared():
    names, visible, specs = set(), set(), set()
    for path in texts():
        if not path.endswith(".antt"):
            continue
        with open(path, encoding="utf-8") as f:
            for line in f:
                m = DECLARED.match(line)
                if not m or line.lstrip().startswith("--"):
                    continue
                if is_proof(path):
                    if m[2].endswith("-spec"):
                        specs.add(m[2])
                    continue
                names.add(m[2])
                if "abbrev" in m[1] or "unfoldable" in m[1]:
                    visible.add(m[2])
    return names, visible, specs


def humps():
    found = set()
    for path in texts():
        with open(path, encoding="utf-8") as f:
            text = f.read()
        if path.endswith(".rt"):
            text = re.sub(r'"(?:[^"\\\n]|\\.)*"', "", text)
        for t in TOKEN.findall(text):
            if HUMPS.match(t) and re.search("[a-z0-9][A-Z]", t) and not SHORT.match(t):
                found.add(t)
    return found


def joined(name, known):
    """A lemma's name: a dash between two names, an underscore before or behind a plain word."""
    words = [snake(w) for w in name.split("-")]
    parts, at = [], 0
    while at < len(words):
        for end in range(len(words), at, -1):
            part = "_".join(words[at:end])
            if part in known or end == at + 1:
                parts.append((part, part in known))
                at = end
                break
    text = parts[0][0]
    for (_, before), (part, is_name) in zip(parts, parts[1:]):
        text += ("-" if before and is_name else "_") + part
    return text


def table():
    names, visible, specs = declared()
    new = {}
    for n in humps():
        new[n] = snake(n)
    known = {snake(n).replace("-", "_") for n in visible if n[0].islower()} | set(STD)
    for n in sorted(names):
        if "-" not in n or n.startswith("-") or n.endswith("-"):
            continue
        if n[0].isupper():
            to = "".join(w[:1].upper() + w[1:] for w in n.split("-")) if n in visible else n
        elif n in visible:
            to = snake(n).replace("-", "_")
        else:
            to = joined(n, known)
        if to != n:
            new[n] = to
    for n in specs:
        new[n] = n.replace("-", "_")
    # A lemma that would share its new name with a definition keeps its dash.
    taken = {to for old, to in new.items() if "-" not in old} | {n for n in names if "-" not in n and n not in new}
    for old in [o for o in new if "-" in o and not o.endswith("-spec") and new[o] in taken]:
        del new[old]
    new.update(TAKEN)
    return new


def turned(text, new, rust):
    if not rust:
        return TOKEN.sub(lambda m: new.get(m[0], m[0]), text)
    parts = re.split(r'("(?:[^"\\\n]|\\.)*")', text)
    return "".join(p if i % 2 else TOKEN.sub(lambda m: new.get(m[0], m[0]), p) for i, p in enumerate(parts))


def clashes(new):
    """Files in which a new spelling stands already beside the old one, and new spellings that two old ones share."""
    said = []
    back = collections.defaultdict(set)
    for old, to in new.items():
        back[to].add(old)
    said += [f"clash: {', '.join(sorted(olds))} all become {to}" for to, olds in sorted(back.items()) if len(olds) > 1]
    for path in texts():
        with open(path, encoding="utf-8") as f:
            text = re.sub(r"(?m)(^|\s)(--|//).*$", "", f.read())
        tokens = set(TOKEN.findall(text))
        rust = path.endswith(".rt")
        for t in sorted(tokens & new.keys()):
            # Behind a dot a name is a field's or a path's; in code only a parameter hides a clause's word.
            bare = rf"[(,]\s*{re.escape(new[t])}: " if rust else rf"(?<![^\s(){{}}\[\];,]){re.escape(new[t])}(?![^\s(){{}}\[\];,.])"
            if re.search(bare, text):
                said.append(f"clash: {path}: {t} becomes {new[t]}, which stands there")
    return said


def main():
    new = table()
    for old in sorted(new):
        print(f"{old}\t{new[old]}")
    said = clashes(new)
    print("\n".join(said), file=sys.stderr)
    if "--show" in sys.argv[1:]:
        return
    for path in texts():
        with open(path, encoding="utf-8") as f:
            text = f.read()
        to = turned(text, new, path.endswith(".rt"))
        if to != text:
            with open(path, "w", encoding="utf-8") as f:
                f.write(to)


if __name__ == "__main__":
    main()
