#!/usr/bin/env python3
"""Mends how many steps back a helper's argument stands in the answers of a crate, by what the check says: python3 tools/befores.py NAME.. at the top."""

import re
import subprocess
import sys

NO = re.compile(r"(\./\S+\.antt):(\d+):(\d+): error: .*record `\S+` has no field `before`")
OFF = re.compile(r"(\./\S+\.antt):(\d+):(\d+): error: .*?(?:expected type `[\w.]*?((?:Start|Else|Then|After|In|At|Joined)[^\s`]*) tie|where one has `lts\.(\S+)`)")


for crate in sys.argv[1:]:
    crate, _, only = crate.partition(":")
    for _ in range(14 if only else 7):
        r = subprocess.run(["rt", "check", "--jobs", "2"] + (["--only", crate + ":" + only] if only else []), cwd=f"crates/{crate}", capture_output=True, text=True)
        said = r.stdout + r.stderr
        places = {}
        for line in said.split("\n"):
            m = NO.match(line)
            if m:
                places.setdefault(m[1], []).append((int(m[2]), int(m[3]), -1))
                continue
            m = OFF.match(line)
            if m and ("but this has type `lts." in line or "but this has type `goal." in line or "the other has `lts." in line or "differ only where one has `lts." in line):
                places.setdefault(m[1], []).append((int(m[2]), int(m[3]), 1))
        n = 0
        for path, at in places.items():
            full = f"crates/{crate}/{path}"
            with open(full, encoding="utf-8") as f:
                lines = f.read().split("\n")
            for row, col, by in sorted(at, reverse=True):
                old = lines[row - 1]
                if by < 0:
                    # The column is that of the field: take the longest chain around it.
                    ms = [m for m in re.finditer(r"(\w+)((?:\.before)+)", old) if m.start() + 1 <= col <= m.end() + 1]
                    if not ms:
                        continue
                    token = ms[0][0]
                    short = token[: -len(".before")]
                    pattern = re.compile(re.escape(token) + r"(?![.\w])")
                    new = pattern.sub(short, old)
                else:
                    m = re.match(r"\(?(\w+(?:\.before)*)", old[col - 1 :])
                    if not m:
                        continue
                    pattern = re.compile(rf"(?<![\w.]){re.escape(m[1])}(?![.\w])")
                    new = old[: col - 1] + pattern.sub(m[1] + ".before", old[col - 1 :], count=1)
                if new != old:
                    lines[row - 1] = new
                    n += 1
            with open(full, "w", encoding="utf-8") as f:
                f.write("\n".join(lines))
        print(f"{crate}: {n} places", flush=True)
        if not n:
            print("\n".join(l[:330] for l in said.split("\n") if "error" in l or l.startswith("logic=")))
            break
