#!/usr/bin/env python3
"""Writes the clauses that a check asks for: usage: python3 tools/clauses.py NAME.. at the top. Each crate is checked again until it asks for no more."""

import re
import subprocess
import sys


def asked(said):
    lines = said.split("\n")
    for i, line in enumerate(lines):
        m = re.match(r"(\./\S+\.antt):(\d+):\d+: error: `([^`]+)`: write the clauses?(.*)$", line)
        if not m:
            continue
        one = re.match(r" `(.*)`$", m[4].strip() and " " + m[4].strip())
        if one:
            yield m[1], int(m[2]), m[3], [one[1]]
            continue
        name, found = m[3], []
        for more in lines[i + 1 : i + 60]:
            if not more.startswith("  "):
                break
            if more.strip().startswith(name + " "):
                found.append(more.strip())
        yield m[1], int(m[2]), name, found


def write(crate, said):
    files = {}
    for path, at, name, clauses in asked(said):
        files.setdefault(path, []).append((at, name, clauses))
    n = 0
    for path, places in files.items():
        full = f"crates/{crate}/{path}"
        with open(full, encoding="utf-8") as f:
            lines = f.read().split("\n")
        for at, name, clauses in sorted(places, reverse=True):
            i = at - 1
            while i >= 0 and not re.match(rf"\s*(abbrev |pub |unfoldable )*{re.escape(name)} :", lines[i]):
                i -= 1
            if i < 0:
                print(f"{full}:{at}: no signature of {name}")
                continue
            indent = re.match(r"\s*", lines[i])[0]
            j = i + 1
            while j < len(lines) and not re.match(rf"{indent}{re.escape(name)}( |$)", lines[j]):
                j += 1
            lines[j:j] = [indent + c for c in clauses]
            n += len(clauses)
        with open(full, "w", encoding="utf-8") as f:
            f.write("\n".join(lines))
    return n


for crate in sys.argv[1:]:
    for _ in range(8):
        r = subprocess.run(["rt", "check", "--jobs", "2"], cwd=f"crates/{crate}", capture_output=True, text=True)
        said = r.stdout + r.stderr
        n = write(crate, said)
        print(f"{crate}: {n} clauses written", flush=True)
        if not n:
            print("\n".join(l[:300] for l in said.split("\n") if "error" in l or l.startswith("logic=")))
            break
