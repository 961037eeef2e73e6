#!/usr/bin/env python3
"""Turns the proofs of one crate, each a Proof.antt that passes its goals by position, to Answers.antt and Invariants.antt that name them.

usage: python3 tools/answers.py NAME..        at the top; the crates below NAME are proved

It asks the check for each goal's old and new name. A goal that was left to the search is left out. What it can't turn it says: then the
old file stays beside, as Proof.antt.old, until its answers are written by hand.
"""

import json
import os
import re
import subprocess
import sys
import tempfile

WORD = r"[^\s(){}\[\].;,@\"«»:]+"
TRIVIAL = re.compile(r"^\(?λ [^.()]*\. search rules\)?$")


def flat(name):
    return name.replace("_", "-").replace("«", "").replace("»", "")


class Function:
    """What the check makes of one function: its places, goals and loops, by their old names."""

    def __init__(self, it):
        self.places, self.clauses, self.raw = {}, {}, {}
        for (old, parent, (was, now), _, _), new, arm, clause in zip(it["places"], it["places_by_name"], it["arms"], it["clauses"]):
            self.places[flat(old)] = (flat(parent) if parent else None, flat(was), now, new, arm)
            self.raw[flat(old)] = old
            self.clauses[now] = (clause or {}).get("fields") or []
        self.handed = " tie.handed_clauses" if any(it["clauses"]) else ""
        self.asked = {new for _, new in it["asked_at"]}
        self.goals = [(old, new) for old, new in it["needs"]]
        self.at = [flat(a) for a, _ in it["asked_at"]]
        self.loops = it["loops"]
        self.changed = it["changed"]
        self.settled = len(it["settled"])
        self.args = {old.split(" .")[-1]: new.split(" .")[-1] for old, new in it["args"] if old.startswith(".args ")}

    def goal(self, name):
        for i, (old, new) in enumerate(self.goals):
            for key in (old, new, "overflow-" + old, "nonzero-" + old):
                if flat(key) == flat(name):
                    return i
        for i, (old, new) in enumerate(self.goals):
            if flat(name) in (flat(re.sub("^overflow_", "", new)),):
                return i
        return None

    def chain(self, place):
        while place is not None:
            yield place
            place = self.places[place][0]

    def field(self, place, name, rest):
        """The new path of a field of a step before a place, and how many parts of the rest it took."""
        for p in self.chain(place):
            _, was, now, _, arm = self.places[p]
            if arm:
                for sub, old, path in arm[2]:
                    if path and flat(old) == flat(name) and rest[: len(path)] == path:
                        return f"{arm[0]}.{sub}", len(path)
            if was == flat(name):
                return now, 0
        return None


def blocks(text):
    """The head of a file, and its top-level declarations."""
    lines = text.split("\n")
    at = 0
    while at < len(lines) and (not lines[at].strip() or lines[at].startswith(("--", "use ", "  ", "}"))):
        at += 1
    # Comments right above the first declaration belong to it.
    head = lines[:at]
    rest, current = [], []
    for line in lines[at:]:
        if not line.strip() and current:
            rest.append("\n".join(current))
            current = []
        elif line.strip():
            current.append(line)
    if current:
        rest.append("\n".join(current))
    joined = []
    for b in rest:
        if joined and b.startswith(" "):
            joined[-1] += "\n" + b
        else:
            joined.append(b)
    return "\n".join(head), joined


def name_of(block):
    for line in block.split("\n"):
        if line.startswith("--"):
            continue
        m = re.match(rf"(?:abbrev |pub |unfoldable |record |data )*({WORD})", line)
        return m[1] if m else None
    return None


def arguments(text):
    """The arguments of a call, by brackets and blanks."""
    out, depth, now = [], 0, ""
    for ch in text:
        if ch in "([{":
            depth += 1
        if ch in ")]}":
            depth -= 1
        if ch.isspace() and depth == 0:
            if now:
                out.append(now)
            now = ""
        else:
            now += ch
    if now:
        out.append(now)
    return out


class Turner:
    def __init__(self, function, crate, path):
        self.f, self.crate, self.path = function, crate, path
        self.said = []
        self.helpers = {}
        self.answers = {}
        self.negates = False
        self.inner = False

    def say(self, text):
        self.said.append(text)

    def body(self, text, place, var="c"):
        """A body, with each path from its place turned."""
        if place is None:
            return text
        aliases = {var}
        for _ in range(4):
            for m in re.finditer(rf"let ({WORD}) = ({WORD})((?:\.before)*) in", text):
                if m[2] in aliases:
                    aliases.add(m[1])
        heads = "|".join(re.escape(a) for a in sorted(aliases, key=len, reverse=True))

        def path(m):
            parts = [p for p in m[2].split(".") if p]
            depth = 0
            while parts and parts[0] == "before":
                parts.pop(0)
                depth += 1
            if not parts:
                return m[0]
            name, rest = parts[0], parts[1:]
            name = "requires" if name == "pre" else name.replace("_Is_", "_")
            if name in ("args", "requires", "well_formed", "ranges"):
                if rest and name in ("args", "ranges"):
                    rest[0] = self.f.args.get(rest[0], rest[0].replace("-", "_"))
                return ".".join([var, name] + rest)
            found = self.f.field(place, name, rest)
            if found is None:
                self.say(f"no step {name} at {place}")
                return ".".join([var] + parts)
            rest = rest[found[1] :]
            if found[0].startswith("if-") and rest:
                rest[0] = {"taken": "true", "left": "false", "came": "branch"}.get(rest[0], rest[0])
            fields = self.f.clauses.get(found[0], [])
            if fields and rest[:1] == ["ensures"]:
                if len(fields) == 1:
                    rest.insert(1, fields[0])
                elif len(rest) > 1 and rest[1].isdigit():
                    # The last of a nest of pairs stands behind as many steps.
                    k, used = 0, 1
                    while used < len(rest) and rest[used] == "1" and k + 2 < len(fields):
                        k, used = k + 1, used + 1
                    k = min(len(fields) - 1, k + int(rest[used])) if used < len(rest) and rest[used].isdigit() else k
                    rest[1 : used + 1] = [fields[k]]
            return ".".join([var, found[0]] + rest)

        text = re.sub(rf"(?<![^\s(){{}}\[\];,])({heads})((?:\.(?:«{WORD}»|{WORD}))+)", path, text)
        # A test of a negation is what it says of the negated now.
        test = rf"{re.escape(var)}\.if-not-{WORD}\.(?:true|false)"
        text = re.sub(rf"not-(?:true|false) _ \(({test})\)", r"\1·", text)
        text = re.sub(rf"not-(?:true|false) _ ({test})", r"\1·", text)
        text = re.sub(rf"({test})(?!·)", r"(ap not \1)", text)
        self.negates |= "(ap not " in text
        text = text.replace("·", "")
        # Names for arguments.
        for m in list(re.finditer(rf"let ({WORD}) = {re.escape(var)}\.args in", text)):
            for old, new in self.f.args.items():
                text = re.sub(rf"(?<![^\s(){{}}\[\];,]){re.escape(m[1])}\.{re.escape(old)}(?![\w-])", f"{m[1]}.{new}", text)
        # A helper takes the record of its own place.
        for helper, at in self.helpers.items():
            steps = list(self.f.chain(place))
            if at in steps:
                # An arm and what it says of the value are one step.
                arms = [self.f.places[p][4] for p in steps[: steps.index(at)]]
                to = var + ".before" * sum(1 for a in arms if not a or a[1] < 2)
                new = self.answers.get(helper, helper)
                text = re.sub(rf"(?<![^\s(){{}}\[\];,]){re.escape(helper)} (?:{heads})(?:\.before)*(?: κs)?(?![.\w])", f"{new} {to}", text)
        # Names for places that are no longer used.
        for a in aliases - {var}:
            bare = re.sub(rf"let {re.escape(a)} = {WORD}(?:\.before)* in *\n? *", "", text)
            if not re.search(rf"(?<![^\s(){{}}\[\];,]){re.escape(a)}(?![^\s(){{}}\[\];,])", bare):
                text = bare
        return text

    def place(self, text):
        m = re.search(r"tie\.((?:After|Then|Else|At|In|Start|Joined|Untold)[^\s()]*)", text)
        return flat(m[1]) if m and flat(m[1]) in self.f.places else None

    def types(self, text):
        def one(m):
            p = flat(m[1])
            if p in self.f.places:
                new = self.f.places[p][3]
                self.inner = True
                loops = "".join(f" goal.the-invariant-{n[1]} goal.the-decreases-{n[1]}" for n, _ in self.f.loops)
                return f"lts.{self.f.raw[p]} tie.the-claims reads.Pre reads.Post{loops}{self.f.handed}"
            return m[0]

        text = re.sub(r"tie\.((?:After|Then|Else|At|In|Start|Joined|Untold)[^\s()]*)(?: invariant-\S+?(?=[ )])| decreases-\S+?(?=[ )]))*", one, text)
        return re.sub(r" (?:invariant|decreases)-[^\s()]+", "", text) if "tie." not in text.replace("tie.the-claims", "").replace("tie.handed_clauses", "") else text

    def invariant(self, block):
        """An invariant or a measure of a loop, over the record of its variables."""
        m = re.search(r"tie\.(invariant|decreases)-(\S+)", block)
        kind, loop = m[1], m[2]
        at = [i for i, (names, _) in enumerate(self.f.loops) if flat(names[0]) == flat(loop)]
        if not at:
            self.say(f"no loop {loop}")
            return None
        names, variables = self.f.loops[at[0]]
        new = f"{kind}-{names[1]}"
        old = name_of(block)
        lines = block.split("\n")
        comment = [x for x in lines if x.startswith("--")]
        clause = "\n".join(x for x in lines if not x.startswith("--"))
        sig, _, rest = clause.partition("\n")
        unfolding = ""
        if rest.startswith("unfolding"):
            unfolding, _, rest = rest.partition("\n")
        left, _, right = rest.partition(" =")
        params = left.split()[1:]
        changed = self.f.changed[at[0]]
        to = [f"l.initial.{v}" if c else f"l.{v}" for v, c in zip(variables, changed)] + [f"l.{v}" for v, c in zip(variables, changed) if c]
        if len(params) != len(to):
            self.say(f"{old}: {len(params)} parameters, {len(to)} variables: {variables} {changed}")
            return None
        table = dict(zip(params, to))
        right = re.sub(rf"(?<![^\s(){{}}\[\];,])({WORD})", lambda x: table.get(x[1], x[1]), right)
        out = comment + [f"abbrev pub {new} : goal.{new}"] + ([unfolding] if unfolding else []) + [f"{new} l ={right}"]
        return "\n".join(out)

    def needed(self, block):
        """A goal that is answered by name."""
        m = re.search(r"tie\.Need-([^\s()]+)", block)
        i = self.f.goal(m[1])
        if i is None:
            return None
        return i


def labelled(turner, index, body):
    """A tuple of what a function ensures is a record of the clauses' names."""
    goal = turner.f.goals[index][1]
    labels = turner.labels
    if not goal.startswith("returns") or len(labels) < 2:
        return body
    text = body.rstrip()
    if not text.endswith(")"):
        return body
    depth, at = 0, len(text) - 1
    while at >= 0:
        depth += {")": 1, "]": 1, "}": 1, "(": -1, "[": -1, "{": -1}.get(text[at], 0)
        if depth == 0:
            break
        at -= 1
    before = text[:at].rstrip()
    if before and not re.search(r"(^| )in$", before):
        return body

    def parts(inner):
        out, depth, now = [], 0, ""
        for ch in inner:
            depth += {"(": 1, "[": 1, "{": 1, ")": -1, "]": -1, "}": -1}.get(ch, 0)
            if ch == "," and depth == 0:
                out.append(now.strip())
                now = ""
            else:
                now += ch
        if now.strip():
            out.append(now.strip())
        return out

    found = parts(text[at + 1 : -1])
    while len(found) < len(labels) and found and found[-1].startswith("(") and found[-1].endswith(")"):
        inner = parts(found[-1][1:-1])
        if len(inner) < 2:
            break
        found[-1:] = inner
    if len(found) != len(labels):
        turner.say(f"{goal}: {len(found)} parts for {labels}")
        return body
    return text[:at] + "record { " + "; ".join(f"{l} = {p}" for l, p in zip(labels, found)) + " }"


def labels_of(crate, folder):
    """The names of a function's ensures, from its source."""
    inner = os.path.relpath(folder, f"crates/{crate}/proofs").split(os.sep)
    name = inner[-1].lstrip("+")
    src = f"crates/{crate}/src"
    files = [os.path.join(src, inner[0] + ".rt")] if len(inner) > 1 and os.path.exists(os.path.join(src, inner[0] + ".rt")) else []
    files += [os.path.join(src, f) for f in sorted(os.listdir(src)) if f.endswith(".rt") and os.path.join(src, f) not in files]
    for path in files:
        with open(path, encoding="utf-8") as f:
            text = f.read()
        if len(inner) > 1 and inner[-2][0].isupper():
            m = re.search(rf"(?m)^impl {inner[-2]}\b", text)
            if not m:
                continue
            text = text[m.start() :]
        m = re.search(rf"\bfn {re.escape(name)}\b", text)
        if m:
            head = re.split(r"(?m)^ *\{\s*$", text[m.start() :], maxsplit=1)[0]
            return re.findall(r"\bensures (\w+) \{", head)
    return []


def answer(turner, index, block, old):
    """The block of an answer, under its goal's new name."""
    f = turner.f
    new = f.goals[index][1]
    lines = block.split("\n")
    comment = [x for x in lines if x.startswith("--")]
    code = [x for x in lines if not x.startswith("--")]
    rest = code[1:]
    while code[0].rstrip().endswith(("→", "(")) and rest:
        code[0] += " " + rest.pop(0).strip()
    unfolding = []
    while rest and rest[0].startswith("unfolding"):
        unfolding.append(rest.pop(0))
    text = "\n".join(rest)
    m = re.match(rf"{re.escape(old)} ({WORD})(?: κs)? =", text)
    if not m:
        turner.say(f"{old}: its clause is not read")
        return None
    var = m[1]
    body = text[m.end() :]
    body = labelled(turner, index, turner.body(body, f.at[index], var))
    return "\n".join(comment + [f"pub {new} : goal.{new}"] + unfolding + [f"{new} {var} ={body}"])


def inline(turner, index, arg, unfolding=()):
    m = re.match(rf"^\(λ ({WORD})(?: κs)?\.\s+(.*)\)$", arg, re.S)
    new = turner.f.goals[index][1]
    body = labelled(turner, index, turner.body(" " + m[2], turner.f.at[index], m[1]))
    return "\n".join([f"pub {new} : goal.{new}", *unfolding, f"{new} {m[1]} ={body}"])


def align(turner, args, names):
    """Which goal each argument of tie.spec answers, as far as it can be told."""
    goals = turner.f.goals
    fixed = {}
    for i, a in enumerate(args):
        if a in names:
            fixed[i] = names[a]
    if len(args) == len(goals):
        return {i: i for i in range(len(args))}
    out = dict(fixed)
    marks = [(-1, -1)] + sorted(fixed.items()) + [(len(args), len(goals))]
    for (a0, g0), (a1, g1) in zip(marks, marks[1:]):
        inner, open_goals = list(range(a0 + 1, a1)), list(range(g0 + 1, g1))
        hard = [i for i in inner if not TRIVIAL.match(args[i])]
        if not hard:
            continue
        if len(inner) == len(open_goals):
            out.update(zip(inner, open_goals))
            continue
        # By kind: what a call requires has the lifetimes beside it.
        kinds = lambda i: "κs" in args[i]
        wanted = lambda g: goals[g][1].split("-2")[0].endswith("requires") or "-requires" in goals[g][1]
        trimmed = inner[:]
        while len(trimmed) > len(open_goals):
            soft = [i for i in trimmed if TRIVIAL.match(args[i])]
            drop = None
            for k, i in enumerate(trimmed):
                if k >= len(open_goals) or (kinds(i) != wanted(open_goals[k])):
                    back = [j for j in soft if trimmed.index(j) <= k]
                    drop = back[-1] if back else (soft[0] if soft else None)
                    break
            else:
                drop = soft[-1] if soft else None
            if drop is None:
                break
            trimmed.remove(drop)
        if len(trimmed) <= len(open_goals):
            out.update({i: g for i, g in zip(trimmed, open_goals) if i in hard})
        turner.say(f"by guess: {[(args[i][:40], goals[g][1]) for i, g in out.items() if i in hard]}")
    return out


def turn(path, function, crate):
    with open(path, encoding="utf-8") as f:
        text = f.read()
    folder = os.path.dirname(path)
    module = f"Rattle.{crate}.proofs." + ".".join(os.path.relpath(folder, f"crates/{crate}/proofs").split(os.sep))
    t = Turner(function, crate, path)
    t.labels = labels_of(crate, folder)
    head, decls = blocks(text)
    uses = [u for u in re.findall(r"(?m)^use [^\n]*(?:\n[ }][^\n]*)*", head) if not re.search(r"\.(Statement|Tie|Lts|Reads)(?:\.| |$)", u.split("{")[0])]
    comments = [l for l in head.split("\n") if l.startswith("--")]
    spec = decls[-1]
    invariants, answers, helpers, names = [], [], [], {}
    for b in decls[:-1]:
        m = re.search(r"\(?([^\s()]+) : tie\.(?!Need|invariant|decreases)", b)
        if m and not re.search(r": tie\.(Need|invariant|decreases)", b.split("\n")[0]):
            p = t.place(b)
            if p:
                t.helpers[name_of(b)] = p
                if name_of(b) == "module" or b.lstrip("-").startswith("module") or re.search(r"(?m)^module _", b):
                    t.helpers.update({n: p for n in re.findall(rf"(?m)^  ({WORD}) :", b)})
    for b in decls[:-1]:
        m = re.search(r"tie\.Need-([^\s()]+)", b)
        i = function.goal(m[1]) if m else None
        if i is not None:
            t.helpers[name_of(b)] = function.at[i]
            t.answers[name_of(b)] = function.goals[i][1]
    loops = {}
    for b in decls[:-1]:
        code = [l for l in b.split("\n") if not l.startswith("--")]
        sig = " ".join(code[:2])
        if re.search(r"tie\.(invariant|decreases)-", code[0]):
            got = t.invariant(b)
            loops[name_of(b)] = re.search(r"(\S+) : goal", got)[1] if got else name_of(b)
            invariants.append(got or "-- LEFT\n" + b)
        elif re.search(r"tie\.Need-", code[0]):
            i = t.needed(b)
            if i is None:
                t.say(f"no goal of {re.search(r'tie.Need-([^ ()]+)', b)[1]} (settled now?)")
                names[name_of(b)] = None
                continue
            names[name_of(b)] = i
            got = answer(t, i, b, name_of(b))
            answers.append((i, got or "-- LEFT\n" + b))
        else:
            p = t.place(b)
            m = re.search(rf"\(({WORD}) : tie\.", b)
            n = name_of(b)
            clause = re.search(rf"(?m)^{re.escape(n)} ({WORD})(?: {WORD})* =", b) if re.search(rf"{re.escape(n)} : tie\.", b) else None
            var = m[1] if m else clause[1] if clause else None
            helpers.append(t.types(t.body(b, p, var) if p and var else b))
    m = re.search(r"tie\.close\s*\(?tie\.spec(.*)\)\s*$", spec, re.S)
    if not m:
        t.say("its last declaration is not read: " + " ".join(spec.split())[:200])
        args = []
    else:
        args = [a for a in arguments(m[1]) if a not in loops]
    where = align(t, args, {n: i for n, i in names.items() if i is not None})
    for i, a in enumerate(args):
        if a in names or TRIVIAL.match(a):
            continue
        if i not in where:
            t.say(f"no goal for {' '.join(a.split())[:120]}")
            continue
        if a.startswith("(λ"):
            # What the whole proof opened, its answers in place opened too.
            answers.append((where[i], inline(t, where[i], a, [l for l in spec.split("\n") if l.startswith("unfolding")])))
        else:
            t.say(f"not read: {a[:100]}")
    answers.sort(key=lambda x: x[0])
    # Facts that an invariant names stand beside it.
    inv_text = "\n\n".join(invariants)
    moved = []
    again = True
    while again and inv_text:
        again = False
        for h in helpers:
            n = name_of(h)
            if h not in moved and re.search(rf"(?<![^\s(){{}}\[\];,]){re.escape(n)}(?![^\s(){{}}\[\];,])", re.sub(r"(?m)--.*$", "", inv_text + "\n" + "\n".join(moved))):
                moved.append(h)
                again = True
    helpers = [h for h in helpers if h not in moved]
    note = "\n".join(comments)
    if invariants:
        pub = []
        for h in moved:
            if re.search(r"(?m)^record ", h):
                h = re.sub(rf"(?m)^  ({WORD}) :", r"  pub \1 :", h)
            h = re.sub(r"(?m)^(record|data) ", r"pub \1 ", h, count=1)
            if not re.search(r"(?m)^(abbrev )?pub ", h):
                n = re.escape(name_of(h))
                h = re.sub(rf"(?m)^(abbrev |unfoldable )?({n}) :", lambda m: f"{m[1] or ''}pub {m[2]} :", h, count=1)
            pub.append(h)
        out = note + "\n" + "\n".join(uses + [f"use {module}.Given as goal"]) + "\n\n" + "\n\n".join(pub + invariants) + "\n"
        with open(os.path.join(folder, "Invariants.antt"), "w", encoding="utf-8") as f:
            f.write(out)
    if t.inner:
        uses += [f"use {module}.Lts as lts", f"use {module}.Tie as tie", f"use {module}.Reads as reads"]
    if t.negates:
        for n, m in (("ap", "mathlib.Core.Path"), ("not", "mathlib.Core.Bool")):
            if not re.search(rf"[{{ ,]{n}[}},]", "\n".join(uses)):
                uses.append(f"use {m}.{{{n}}}")
    own = [f"use {module}.Invariants.{{{', '.join(name_of(h) for h in moved)}}}"] if moved else []
    if answers or helpers:
        out = note + "\n" + "\n".join(uses + own + [f"use {module}.Goals as goal"]) + "\n\n" + "\n\n".join(helpers + [a for _, a in answers]) + "\n"
        with open(os.path.join(folder, "Answers.antt"), "w", encoding="utf-8") as f:
            f.write(out)
    os.remove(path)
    return t.said


def crate(name):
    with tempfile.TemporaryDirectory() as d:
        r = subprocess.run(["rt", "check", "--generated", d, "--old-names"], cwd=f"crates/{name}", capture_output=True, text=True)
        found = os.path.join(d, "names.json")
        if not os.path.exists(found):
            print(f"{name}: the check names nothing:\n" + (r.stdout + r.stderr)[-2000:])
            return
        with open(found, encoding="utf-8") as f:
            names = json.load(f)
    for folder, dirs, files in sorted(os.walk(f"crates/{name}/proofs")):
        if "Proof.antt" not in files:
            continue
        inner = os.path.relpath(folder, f"crates/{name}/proofs").split(os.sep)
        key = f"Rattle-{name}-proofs." + ".".join(inner) + ".Lts"
        if inner[-1].startswith("+") or key not in names:
            print(f"{folder}: by hand (no {key})")
            continue
        said = turn(os.path.join(folder, "Proof.antt"), Function(names[key]), name)
        for s in said:
            print(f"{folder}: {s}")


for n in sys.argv[1:]:
    crate(n)
