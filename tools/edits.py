#!/usr/bin/env python3
"""Brings the edits in must-fail/ and tried/ of every crate over to the spelling of today's Rattle.

usage: python3 tools/edits.py [--show] [NAME..]      at the top of the repository; NAME: these crates alone

It reads each edit and the text that it stands on as they were before the port (the first line of docs/PORT.md), finds the line that stands for
that text in the commit that only respelled (the second line), makes the same change there, word by word, and writes the edit for the text as it
is now. An edit that somebody has rewritten since the port is left alone. It prints the edits that it could not turn, and changes nothing of them
(--show: prints each edit as it would be, and writes nothing).
"""

import collections
import difflib
import glob
import os
import re
import subprocess
import sys

WORDS = re.compile(r"\s+|[\w'′″·]+(?:-[\w'′·]+)*|::|->|=>|<=|>=|==|!=|&&|\|\||[^\w\s]")
PARTS = re.compile(r"[\w'′]+|[^\w\s]")
ROUND = set("()⌜⌝")
TIGHT = r"\(([\w']+(?:\.[\w-]+)+)\)"
# Words that no line shows with their new spelling.
TABLE = {"getD": "get_or", "waitWords": "wait_words", "refusalOf": "refusal_of"}
# Files with a new name.
MOVED = {"specs/Contracts.antt": "specs/Promises.antt"}
# Where the words of the line do not say what its change becomes.
BY_HAND = {
    "cabinet/must-fail/not_yet_due": ("GoneBy (wait_in (worlds h j).node.settings from) entered now", "GoneBy (suc (wait_in (worlds h j).node.settings from)) entered now"),
    "history/must-fail/own_address_counted": ("lamps_of address.same own (loaded", "lamps_of (λ x y. false) own (loaded"),
    "history/must-fail/collected_by_the_heap_after": ("outdated_by m.before m.said", "outdated_by m.after m.said"),
    "hostbytes/must-fail/refused_restore_touches_wait": ("≡ kept d.answer.reply (wait_words d.wait) wait", "≡ wait_words d.wait"),
    "lender/must-fail/records_not_lent_are_heard": ("Receives node action (take given records) draws.now", "Receives node action records draws.now"),
    "limit/must-fail/one_entry_wrong": ("    0, 0, 0, 0, 0, 0, 0, 0, 0, 0, 1, 2, 3,", "    0, 0, 0, 0, 0, 0, 0, 0, 0, 0, 2, 2, 3,"),
    "plain_promises/must-fail/a_lower_number_taken": ("≡ max (held here.same m.addr r.table) m.number", "≡ m.number"),
    "promises/must-fail/idles_after_the_first_call": ("→ Runs h'.node h'.wait cs n w →", "→ Runs h.node h.wait cs n w →"),
    "remembering/must-fail/heap_not_asked": ("(else (look_up address.same a s.departed) (death address a s.disseminator.deceased))", "(look_up address.same a s.departed)"),
    "salvage/must-fail/cut_after_address": (
        "= pick (ltb (length bytes) (entry f).width) word.Cut (verdict address kept ((entry f).get bytes))",
        "= pick (not (address_in_rule address ((entry f).get bytes))) word.Address (pick (ltb (length bytes) (entry f).width) word.Cut (verdict address kept ((entry f).get bytes)))",
    ),
    "saving_promises/must-fail/own_is_the_first_kept": ("≡ own_at f bytes", "≡ (record_at f bytes 0).addr"),
    "supply/must-fail/a_step_that_counts_no_send": ("(loaded o.node).disseminator.alive + from-alive ≡ owed", "(loaded o.node).disseminator.alive ≡ owed"),
    "supply_promises/must-fail/a_refused_step_counted": (" && has_run s.reply)", ")"),
    "swim/tried/messages_counted_as_events": ("reported = length o.events }", "reported = length o.messages }"),
}


def git(*words):
    return subprocess.run(["git", *words], capture_output=True, text=True).stdout


def key(text):
    return " ".join(PARTS.findall(re.sub("[_«»-]", "", text.lower()).replace("′", "'")))


def spans(text):
    return [(m[0], m.start(), m.end()) for m in WORDS.finditer(text) if not m[0].isspace()]


class File:
    """A file before the port and after the respelling, with the place that stands for each old line."""

    def __init__(self, path, before, respelled):
        self.path = path
        self.old = git("show", f"{before}:{path}").split("\n")
        self.new = git("show", f"{respelled}:{path}").split("\n")
        self.at = {}
        for tag, a, b, c, d in difflib.SequenceMatcher(None, [key(it) for it in self.old], [key(it) for it in self.new], autojunk=False).get_opcodes():
            for i in range(a, b):
                self.at[i] = c + i - a if tag == "equal" else c + (i - a) * (d - c) / (b - a)

    def line(self, place):
        """The line now that stands for the old line at the place."""
        about = self.at[place]
        near = range(max(0, int(about) - 6), min(len(self.new), int(about) + 7))
        like = lambda i: difflib.SequenceMatcher(None, key(self.old[place]), key(self.new[i])).ratio() - abs(i - about) / 1000
        return self.new[max(near, key=like)]


def table(files):
    """What each word became, from lines of which only the spelling changed."""
    seen = collections.defaultdict(collections.Counter)
    for f in files:
        for i, at in f.at.items():
            if at == int(at) and at < len(f.new) and f.old[i].strip() and key(f.old[i]) == key(f.new[int(at)]):
                a, b = [[t for t, _, _ in spans(it)] for it in (f.old[i], f.new[int(at)])]
                for x, y in zip(a, b) if len(a) == len(b) else ():
                    seen[x][y] += 1
    return {x: many.most_common(1)[0][0] for x, many in seen.items()} | TABLE


def respelled_word(word, words):
    return words.get(word, word).replace("″", "''").replace("′", "'")


def respelled(text, words, is_code):
    text = WORDS.sub(lambda m: m[0] if m[0].isspace() else respelled_word(m[0], words), text)
    text = re.sub(r"\.«(\w+)»", r".\1", text)
    text = re.sub(r"([\w'\)]) \.(?=[\w«])", r"\1.", text)
    return text if is_code else re.sub(TIGHT, r"\1", text)


def balance(text):
    return [text.count(a) - text.count(b) for a, b in ("()", "[]", "{}")]


def changed(was, now, text, words, is_code):
    """Makes the change from was to now in text, which says what was says, or returns None."""
    a, b, c = spans(was), spans(now), spans(text)
    spell = lambda t: key(respelled_word(t, words)) or t
    ka, kc = [spell(t) for t, _, _ in a], [key(t) or t for t, _, _ in c]
    first = 0
    while first < min(len(a), len(b)) and a[first][0] == b[first][0]:
        first += 1
    last = 0
    while last < min(len(a), len(b)) - first and a[-1 - last][0] == b[-1 - last][0]:
        last += 1

    def matched(xs, ys):
        found = {}
        for x, y, n in difflib.SequenceMatcher(None, [ka[i] for i in xs], [kc[i] for i in ys], autojunk=False).get_matching_blocks():
            found.update((xs[x + q], ys[y + q]) for q in range(n))
        return found

    def put(c1, c2, b1, b2):
        lead = now[b[b1 - 1][2] : b[b1][1]] if c1 and 0 < b1 < len(b) else ""
        trail = now[b[b2 - 1][2] : b[b2][1]] if b1 < b2 < len(b) else ""
        middle = respelled(now[b[b1][1] : b[b2 - 1][2]], words, is_code) if b1 < b2 else ""
        left = text[: c[c1 - 1][2]] if c1 else text[: c[0][1]]
        return left + lead + middle + trail + (text[c[c2][1] :] if c2 < len(c) else "")

    made = []
    # by the words alone, since parentheses come and go
    end, until = len(a) - last, len(b) - last
    plain = matched([i for i, t in enumerate(ka) if t not in ROUND], [i for i, t in enumerate(kc) if t not in ROUND])
    if first < end and first < until and not {ka[first], ka[end - 1]} & ROUND and first in plain and end - 1 in plain:
        if balance(was[a[first][1] : a[end - 1][2]]) == balance(now[b[first][1] : b[until - 1][2]]) == [0, 0, 0]:
            made.append(put(plain[first], plain[end - 1] + 1, first, until))
    # between the words before and behind
    every = matched(range(len(a)), range(len(c))) | {-1: -1, len(a): len(c)}
    before, behind, b1, b2 = first - 1, end, first, until
    while before not in every:
        before, b1 = before - 1, b1 - 1
    while behind not in every:
        behind, b2 = behind + 1, b2 + 1
    if every[before] < every[behind]:
        made.append(put(every[before] + 1, every[behind], max(b1, 0), b2))
    want = [x - y for x, y in zip(balance(now), balance(was))]
    return next((it for it in made if [x - y for x, y in zip(balance(it), balance(text))] == want), None)


def window(old, new, text):
    """The change from old to new, two lines, as a part of the line that stands once in text."""
    if text.count(old) == 1 and len(old) <= 110:
        return old, new
    low = len(os.path.commonprefix([old, new]))
    high = len(old) - len(os.path.commonprefix([old[low:][::-1], new[low:][::-1]]))
    while True:
        while low > 0 and old[low - 1] != " ":
            low -= 1
        while high < len(old) and old[high] != " ":
            high += 1
        if text.count(old[low:high]) == 1 and high - low >= min(25, len(old)):
            return old[low:high], new[low : len(new) - (len(old) - high)]
        if low == 0 and high == len(old):
            return None
        low, high = max(0, low - 1), min(len(old), high + 1)


def main(argv):
    show, names = "--show" in argv, [it for it in argv if it != "--show"]
    with open("docs/PORT.md", encoding="utf-8") as f:
        before, after = f.readline().strip(), f.readline().strip()
    since = set(git("log", "--format=", "--name-only", f"{after}..HEAD", "--", "*.edit").split())
    edits, files = [], {}
    for folder in ("must-fail", "tried"):
        for path in sorted(glob.glob(f"crates/*/{folder}/*.edit")):
            said = dict(re.findall(r"(?m)^(file|old|new): (.*)$", git("show", f"{before}:{path}")))
            crate = path.split("/")[1]
            if said:
                at = f"crates/{crate}/{said['file']}"
                files.setdefault(at, None)
                edits.append((path, crate, at, said))
    for at in files:
        files[at] = File(at, before, after)
    words = table(files.values())
    turned = 0
    for path, crate, at, said in edits:
        name = path.removeprefix("crates/").removesuffix(".edit")
        if names and crate not in names or not show and path in since:
            continue
        f, is_code = files[at], at.endswith(".rt")
        old = "\n".join(f.old)
        place = old[: old.index(said["old"])].count("\n")
        line = f.line(place)
        if name in BY_HAND:
            a, b = BY_HAND[name]
            line = next(it for it in f.new if a in it)
            to = line.replace(a, b)
        else:
            to = changed(f.old[place], f.old[place].replace(said["old"], said["new"]), line, words, is_code)
        now = f"crates/{crate}/{MOVED.get(said['file'], said['file'])}" if not os.path.isfile(at) else at
        with open(now, encoding="utf-8") as it:
            text = it.read()
        if to and line not in text.split("\n"):
            # the line changed after the port
            its = max(text.split("\n"), key=lambda x: difflib.SequenceMatcher(None, key(line), key(x)).ratio())
            line, to = its, changed(line, to, its, words, is_code)
        pair = window(line, to, text) if to else None
        if not pair:
            print(f"{path}: by hand: {line.strip()}")
            continue
        a, b = pair
        if not is_code:
            b = re.sub(r"([\w']) \.(?=[a-z])", r"\1.", b)
            if not re.search(r"(?<=[ (])" + TIGHT, a):
                b = re.sub(r"(?<=[ (])" + TIGHT, r"\1", b)
        turned += 1
        lines = f"file: {now.split('/', 2)[2]}\nold: {a}\nnew: {b}\n"
        if show:
            print(path, lines, sep="\n")
        else:
            with open(path, "w", encoding="utf-8") as it:
                it.write(lines)
    print(f"{turned} of {len(edits)} edits turned")
    return 0


if __name__ == "__main__":
    raise SystemExit(main(sys.argv[1:]))
