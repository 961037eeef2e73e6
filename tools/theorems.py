#!/usr/bin/env python3
"""Moves the theorems of crates from specs/ to proofs/, each to the file of its name there, so that an edit of a definition is refused at them.

usage: python3 tools/theorems.py NAME[:FILE,FILE..]..      at the top

Definitions (abbrev, unfoldable, record, data) stay, and so does a lemma that a definition cites. A private definition that only theorems cite goes
with them. In a theorem a definition of the module around both gets the module's arguments written out. Imports follow in all crates.
"""

import os
import re
import sys

NAME = r"[^\s(){}\[\].;,@\"«»:]+"


class Decl:
    def __init__(self, path, kind, pub, name, lines):
        self.path, self.kind, self.pub, self.name, self.lines = path, kind, pub, name, lines
        self.moves = False

    @property
    def text(self):
        return "\n".join(self.lines)


class Module:
    def __init__(self, path, header, lines_before):
        self.path, self.header, self.before = path, header, lines_before
        self.items = []
        self.params = []
        inner = " ".join(header).strip()
        depth = 0
        for k, ch in enumerate(inner):
            if ch == "(" and depth == 0:
                self.params += inner[k + 1 :].split(" :")[0].split()
            depth += {"(": 1, "{": 1, ")": -1, "}": -1}.get(ch, 0)


def sign(line):
    m = re.match(rf"((?:(?:abbrev|pub|unfoldable) )*)(record|data) ({NAME})", line)
    if m:
        return "def", "pub" in m[1].split(), m[3]
    m = re.match(rf"((?:(?:abbrev|pub|unfoldable|ruleset) )*)({NAME})(?: .*)? :(?: |$)", line)
    if m and m[2] not in ("use", "infix", "infixr", "infixl"):
        words = m[1].split()
        return ("def" if "abbrev" in words or "unfoldable" in words or "ruleset" in words else "thm"), "pub" in words, m[2]
    return None


def parse(lines, indent, path):
    """Items of a block: Decl and Module, comments and blanks with what follows them."""
    items, before, now = [], [], None
    i = 0
    pad = " " * indent
    while i < len(lines):
        line = lines[i]
        if not line.strip():
            before.append(line) if now is None or not (i + 1 < len(lines) and lines[i + 1].startswith(pad + "  ") and lines[i + 1].strip()) else now.lines.append(line)
            if now is not None and before:
                now = None
            i += 1
            continue
        depth = len(line) - len(line.lstrip())
        if depth > indent:
            if now is None and items and isinstance(items[-1], Decl):
                now = items[-1]
                now.lines += before
                before = []
            now.lines.append(line)
            i += 1
            continue
        body = line[indent:]
        if body.startswith("--"):
            before.append(line)
            now = None
            i += 1
            continue
        if body.startswith("module "):
            header = [line]
            while not header[-1].rstrip().endswith("where"):
                i += 1
                header.append(lines[i])
            i += 1
            inner = []
            while i < len(lines) and (not lines[i].strip() or lines[i].startswith(pad + "  ")):
                inner.append(lines[i])
                i += 1
            m = Module(path, header, before)
            before = []
            m.inner_path = path + [m]
            m.items = parse(inner, indent + 2, m.inner_path)
            items.append(m)
            now = None
            continue
        if body.startswith(("infix", "open ", "mutual")):
            if items and isinstance(items[-1], Decl):
                items[-1].lines += before + [line]
            before = []
            i += 1
            continue
        first = body.split(" ")[0]
        s = sign(body)
        last = items[-1] if items and isinstance(items[-1], Decl) else None
        if last and (first == last.name or body.startswith("unfolding ")):
            last.lines += before + [line]
            before = []
            now = last
            i += 1
            continue
        if s is None:
            # A signature over several lines, or a clause of an infix name.
            joined = body
            j = i
            while s is None and j + 1 < len(lines) and lines[j + 1].startswith(pad + "  "):
                j += 1
                joined += " " + lines[j].strip()
                s = sign(joined) if joined.count(":") else None
            if s is None:
                if last:
                    last.lines += before + [line]
                    before = []
                    now = last
                    i += 1
                    continue
                raise SystemExit(f"not read: {line}")
        kind, pub, name = s
        d = Decl(path, kind, pub, name, before + [line])
        before = []
        items.append(d)
        now = d
        i += 1
    return items


def tokens(text):
    text = re.sub(r"(?m)(^|\s)--.*$", "", text)
    return set(re.findall(rf"(?<![^\s(){{}}\[\];,]){NAME}", text))


def flat(items):
    for it in items:
        if isinstance(it, Module):
            yield from flat(it.items)
        else:
            yield it


class File:
    def __init__(self, crate, name):
        self.crate, self.name = crate, name
        with open(f"crates/{crate}/specs/{name}.antt", encoding="utf-8") as f:
            lines = f.read().rstrip("\n").split("\n")
        at = 0
        while at < len(lines) and (lines[at].startswith(("use ", "pub use ", "--", "  ", "}")) or not lines[at].strip()):
            at += 1
        while at > 0 and (lines[at - 1].startswith("--") or not lines[at - 1].strip()):
            at -= 1
        head = lines[:at]
        self.notes = []
        for l in head:
            if not l.startswith("--"):
                break
            self.notes.append(l)
        self.shared = [l for l in head if l.startswith("pub use ")]
        self.uses = re.findall(r"(?m)^(?:pub )?use [^\n{]*(?:\{[^}]*\})?[^\n]*", "\n".join(head[len(self.notes) :]))
        if not self.uses and at == 0:
            self.notes = []
        body = lines[at:]
        if not self.uses:
            # A file without imports: its first comments are the notes.
            k = 0
            while k < len(body) and body[k].startswith("--"):
                k += 1
            self.notes, body = self.notes + body[:k], body[k:]
        self.items = parse(body, 0, [])
        self.decls = list(flat(self.items))

    def imported(self):
        """Names that come from files of the crate: name -> (file, name there)."""
        out = {}
        for u in self.uses:
            m = re.match(rf"use Rattle\.{self.crate}\.specs\.(\w+)\.\{{(.*)\}}$", u, re.S)
            if m:
                for item in m[2].split(","):
                    a = item.strip().split(" as ")
                    if a[0]:
                        out[a[-1]] = (m[1], a[0])
        return out


def marked(crate):
    """Texts that must-fail and tried edits change, by file."""
    out = {}
    for sub in ("must-fail", "tried"):
        folder = f"crates/{crate}/{sub}"
        for e in sorted(os.listdir(folder)) if os.path.isdir(folder) else []:
            with open(os.path.join(folder, e), encoding="utf-8") as f:
                t = f.read()
            file = re.search(r"(?m)^file: (?:specs/(\w+)\.antt)?", t)
            for old in re.findall(r"(?m)^old: ?(.*)$", t):
                if file and file[1]:
                    out.setdefault(file[1], []).append((e, old))
    return out


def decide(crate, files):
    edits = marked(crate)
    # What stays: definitions, but for private ones that no definition which stays cites, and lemmas that a definition cites.
    for f in files.values():
        for d in f.decls:
            d.moves = d.kind == "thm" or not d.pub
            if d.kind == "def" and any(old and old in d.text for _, old in edits.get(f.name, [])):
                d.moves = False
    again = True
    while again:
        again = False
        for f in files.values():
            own = {}
            for d in f.decls:
                own.setdefault(d.name, []).append(d)
            ext = f.imported()
            for d in f.decls:
                if d.moves:
                    continue
                heads = [l for m in d.path for l in m.header]
                for t in tokens(d.text + "\n" + "\n".join(heads)):
                    t = t.strip("'") if t not in own and t not in ext else t
                    for e in own.get(t, []):
                        if e.moves and e is not d:
                            e.moves, again = False, True
                    if t in ext and ext[t][0] in files:
                        for e in files[ext[t][0]].decls:
                            if e.name == ext[t][1] and e.moves:
                                e.moves, again = False, True


# What a file is called in proofs/ where the check makes a module of that name there.
OTHER = {"Met": "Meets"}


def bound(d):
    """Names that a declaration binds, so that they are no definitions there."""
    out = set()
    for g in re.findall(rf"[({{]({NAME}(?: {NAME})*) :", d.text):
        out.update(g.split())
    for g in re.findall(rf"λ ((?:{NAME} ?)+)\.", d.text):
        out.update(g.split())
    out.update(re.findall(rf"let ({NAME}) ", d.text))
    for line in d.lines:
        m = re.match(rf"\s*{re.escape(d.name)} (.*?) =", line)
        if m and not m[1].startswith(":") and " : " not in m[1]:
            out.update(re.findall(rf"(?<![^\s(){{}}\[\];,]){NAME}", m[1]))
    return out


def written(items, keep, spell):
    out = []
    for it in items:
        if isinstance(it, Module):
            inner = written(it.items, keep, spell)
            if inner:
                head = [spell(l, it.path) for l in it.header]
                before = it.before if it.before and not it.before[0].strip() or not out else [""] + it.before
                out += before + head + inner
        elif keep(it):
            lines = []
            skip = bound(it)
            for l in it.lines:
                lines.append(l if l.lstrip().startswith(("unfolding ", "--")) else spell(l, it.path, skip))
            out += lines
    return out


def shared(a, b):
    n = 0
    for x, y in zip(a, b):
        if x is not y:
            break
        n += 1
    return n


def trimmed(uses, text, keeps=False):
    out = []
    have = tokens(text)
    plain = re.sub(r"(?m)(^|\s)--.*$", "", text)
    for u in uses:
        if u.startswith("pub use "):
            if keeps:
                out.append(u)
                continue
            u = u[len("pub ") :]
        m = re.match(r"(use [^{]*)\{(.*)\}$", u, re.S)
        if m:
            items = [i.strip() for i in m[2].split(",") if i.strip()]
            used = []
            for i in items:
                n = i.split(" as ")[-1]
                if n == "[]" or n in have or "◌" in n and all(p in plain for p in n.split("◌") if p) or n.startswith("«") or re.search(rf"(?<![\w-]){re.escape(n)}[.']", plain) or n == "arith":
                    used.append(i)
            if used:
                out.append(f"{m[1]}{{{', '.join(used)}}}")
        else:
            m = re.match(rf"use (\S+?)(?: as ({NAME}))?$", u)
            n = m[2] or m[1].split(".")[-1]
            if re.search(rf"(?<![\w.-]){re.escape(n)}\.", plain):
                out.append(u)
    return out


def turn(crate, only):
    names = [re.match(r"pub mod (\w+)", l)[1] for l in open(f"crates/{crate}/specs/Lib.antt", encoding="utf-8") if l.startswith("pub mod ")]
    files = {n: File(crate, n) for n in names}
    decide(crate, files)
    if only:
        for n, f in files.items():
            if n not in only:
                for d in f.decls:
                    d.moves = False
    moved = {}
    for n, f in files.items():
        going = [d for d in f.decls if d.moves]
        staying = [d for d in f.decls if not d.moves]
        if not any(d.kind == "thm" for d in going):
            for d in going:
                d.moves = False
            continue
        moved[n] = ({d.name for d in going}, {d.name for d in staying})
    os.makedirs(f"crates/{crate}/proofs", exist_ok=True)
    for n, (going, staying) in moved.items():
        f = files[n]
        by = {}
        for d in f.decls:
            if not d.moves:
                by.setdefault(d.name, []).append(d)

        def spell(line, path, skip=()):
            def one(m):
                t = m[0]
                if t not in by or t in skip:
                    return t
                # A field of a record that is made.
                if line[m.end() : m.end() + 2] == " =" and re.search(r"(^\s*|[{;] *)$", line[: m.start()]):
                    return t
                d = by[t][0]
                k = shared(d.path, path)
                args = [p for mod in d.path[:k] for p in mod.params]
                return f"({t} {' '.join(args)})" if args else t

            head, sep, note = line.partition(" --") if " -- " in line else (line, "", "")
            return re.sub(rf"(?<![^\s(){{}}\[\];,]){NAME}", one, head) + sep + note

        proofs = written(f.items, lambda d: d.moves, spell)
        text = "\n".join(proofs)
        uses = list(f.uses)
        # Constructors and fields come with their types.
        cons = []
        for d in f.decls:
            if not d.moves and d.kind == "def" and re.search(r"(^|\n) *(pub )?data ", d.text):
                cons += [c for g in re.findall(rf"(?m)^ +(?:pub )?({NAME}(?: {NAME})*) :", d.text) for c in g.split()]
        kept = [x for x in dict.fromkeys([d.name for d in f.decls if not d.moves] + cons)]
        if kept:
            uses.append(f"use Rattle.{crate}.specs.{n}.{{{', '.join(kept)}}}")
        # What theorems cite is public.
        cited = tokens(text)
        for d in f.decls:
            if not d.moves and not d.pub and d.name in cited:
                d.pub = True
                k = next(i for i, l in enumerate(d.lines) if sign(l.strip()) or re.match(r"\s*(abbrev|unfoldable|record|data)? ?", l) and d.name in l.split() and not l.strip().startswith("--"))
                pad = d.lines[k][: len(d.lines[k]) - len(d.lines[k].lstrip())]
                body = d.lines[k].strip()
                m = re.match(r"(abbrev |unfoldable )?(.*)", body)
                d.lines[k] = pad + (m[1] or "") + "pub " + m[2]
        out = f.notes + trimmed(uses, text) + [""] + proofs
        with open(f"crates/{crate}/proofs/{OTHER.get(n, n)}.antt", "w", encoding="utf-8") as g:
            g.write(re.sub(r"\n{3,}", "\n\n", "\n".join(out)).rstrip() + "\n")
        specs = written(f.items, lambda d: not d.moves, lambda l, p, b=(): l)
        if staying:
            text = "\n".join(specs)
            out = f.notes + trimmed(f.uses, text, True) + [""] + specs
            with open(f"crates/{crate}/specs/{n}.antt", "w", encoding="utf-8") as g:
                g.write(re.sub(r"\n{3,}", "\n\n", "\n".join(out)).rstrip() + "\n")
        else:
            os.remove(f"crates/{crate}/specs/{n}.antt")
    # The lists of files.
    lib = f"crates/{crate}/specs/Lib.antt"
    with open(lib, encoding="utf-8") as g:
        text = g.read()
    for n, (going, staying) in moved.items():
        if not staying:
            text = re.sub(rf"(?m)^pub mod {n}\n", "", text + "\n").rstrip("\n") + "\n"
    with open(lib, "w", encoding="utf-8") as g:
        g.write(text)
    lib = f"crates/{crate}/proofs/Lib.antt"
    old = open(lib, encoding="utf-8").read() if os.path.exists(lib) else "-- The theorems, each in the file of the definitions that it is about.\n"
    with open(lib, "w", encoding="utf-8") as g:
        g.write(old.rstrip("\n") + "\n" + "".join(f"pub mod {OTHER.get(n, n)}\n" for n in names if n in moved))
    follow(crate, moved)


def follow(crate, moved):
    """Imports of what moved, in all crates."""
    for folder, dirs, fs in os.walk("crates"):
        dirs[:] = [d for d in dirs if d != "out"]
        for name in fs:
            if not name.endswith(".antt"):
                continue
            p = os.path.join(folder, name)
            with open(p, encoding="utf-8") as f:
                text = f.read()
            new = text

            def one(m):
                n = m[1]
                if n not in moved:
                    return m[0]
                going, staying = moved[n]
                items = [i.strip() for i in m[2].split(",") if i.strip()]
                a = [i for i in items if i.split(" as ")[0] in going and i.split(" as ")[0] not in staying]
                b = [i for i in items if i not in a]
                lines = []
                if b:
                    lines.append(f"use Rattle.{crate}.specs.{n}.{{{', '.join(b)}}}")
                if a:
                    lines.append(f"use Rattle.{crate}.proofs.{OTHER.get(n, n)}.{{{', '.join(a)}}}")
                return "\n".join(lines)

            new = re.sub(rf"use Rattle\.{crate}\.specs\.(\w+)\.\{{([^}}]*)\}}", one, new)
            for n, (going, staying) in moved.items():
                m = re.search(rf"(?m)^use Rattle\.{crate}\.specs\.{n} as ({NAME})$", new)
                m2 = re.search(rf"(?m)^use Rattle\.{crate}\.specs\.{n}$", new)
                alias = m[1] if m else n if m2 else None
                if alias:
                    body = new[(m or m2).end() :]
                    used = set(re.findall(rf"(?<![\w.-]){re.escape(alias)}\.({NAME})", body))
                    gone = {u for u in used if u in going and u not in staying}
                    if gone and not used - gone:
                        new = new.replace((m or m2)[0], f"use Rattle.{crate}.proofs.{OTHER.get(n, n)} as {alias}")
                    elif gone:
                        new = new.replace((m or m2)[0], (m or m2)[0] + f"\nuse Rattle.{crate}.proofs.{OTHER.get(n, n)} as {alias}_proved")
                        for u in gone:
                            new = re.sub(rf"(?<![\w.-]){re.escape(alias)}\.{re.escape(u)}(?![\w-])", f"{alias}_proved.{u}", new)
                # A whole path in a term.
                for u in going - staying:
                    new = re.sub(rf"Rattle\.{crate}\.specs\.{n}\.{re.escape(u)}(?![\w-])", f"Rattle.{crate}.proofs.{OTHER.get(n, n)}.{u}", new)
            if new != text:
                with open(p, "w", encoding="utf-8") as f:
                    f.write(new)


for c in sys.argv[1:]:
    name, _, files = c.partition(":")
    turn(name, [f for f in files.split(",") if f])
