#!/usr/bin/env python3
"""A second reading of the papers, for scripts that the published Rust cannot judge: those with `collect` or `remember`.

usage: collecting.py answers <SCRIPT      the answers and states that the papers ask for
       collecting.py script SEED CALLS    a script of so many calls: few peers that flap, on small and on full heaps
       collecting.py stored               oracle/stored/collected.script: full heaps that are freed or not, then 300 calls
       collecting.py departed             oracle/stored/departed.script: removals, a full row, D from it, then 150 calls

Written from the papers alone. Addresses are IPv4, and scripts hold only well-formed lines whose tests 3 to 5 pass.
"""
import random
import sys

HEAP, LIST, TIMERS, ROW, LAST, ROUND = 128, 64, 16, 128, 2**64 - 1, 2**32


class Refused(Exception):
    """A refusal by its number."""


def chars(address):
    ip, port = divmod(address, 65536)
    return len(".".join(str(ip >> shift & 255) for shift in (24, 16, 8, 0))) + 1 + len(str(port))


def size(gossip):
    _, teller, subject, number = gossip
    length = max(1, -(-number.bit_length() // 7))
    return 2 + 2 + chars(teller) + 2 + chars(subject) + (1 + length if number else 0)


def limit(members, constant):
    power = 0
    while members and 10**power < members**constant:
        power += 1
    return constant + power if members else 0


# "Heap": an entry is (gossip, sends, size), and fewer sends is greater.
def climb(heap, place):
    while place and heap[place][1] < heap[(place - 1) // 2][1]:
        above = (place - 1) // 2
        heap[place], heap[above] = heap[above], heap[place]
        place = above


def below(heap, place):
    left, right = 2 * place + 1, 2 * place + 2
    if right < len(heap) and not heap[left][1] < heap[right][1]:
        return right
    return left


def push(heap, entry):
    heap.append(entry)
    climb(heap, len(heap) - 1)


def sink_top(heap, entry):
    heap[0], place = entry, 0
    while 2 * place + 1 < len(heap):
        child = below(heap, place)
        if not heap[child][1] < heap[place][1]:
            return
        heap[place], heap[child] = heap[child], heap[place]
        place = child


def remove_top(heap):
    last, place = heap.pop(), 0
    if not heap:
        return
    heap[0] = last
    while 2 * place + 1 < len(heap):
        child = below(heap, place)
        heap[place], heap[child] = heap[child], heap[place]
        place = child
    climb(heap, place)


class Node:
    def __init__(self, settings, own, number):
        self.settings, self.own = settings, own
        self.peers, self.order, self.position = {own: ["a", number]}, [own], 0
        self.alive, self.dead, self.timers, self.departed = [], [], [], []
        self.draws, self.used, self.said, self.collected = [], 0, [], 0

    def copy(self):
        other = Node(self.settings, self.own, 0)
        other.peers = {peer: list(held) for peer, held in self.peers.items()}
        other.order, other.position = list(self.order), self.position
        other.alive, other.dead, other.timers = list(self.alive), list(self.dead), list(self.timers)
        other.departed = list(self.departed)
        return other

    def draw(self):
        if self.used == len(self.draws):
            raise Refused(8)
        self.used += 1
        return self.draws[self.used - 1]

    # "List and order"
    def add(self, peer, number):
        if len(self.order) >= LIST:
            raise Refused(7)
        self.order.insert(self.draw() % (len(self.order) + 1), peer)
        self.peers[peer] = ["a", number]

    # "Remember the dead longer": the held number and the remover's are both counted
    def remove(self, peer, number):
        seen = [number, self.peers[peer][1]] + [known for gone, known in self.departed if gone == peer]
        self.departed = [entry for entry in self.departed if entry[0] != peer]
        if len(self.departed) == ROW:
            self.departed.pop(0)
        self.departed.append((peer, max(seen)))
        del self.peers[peer]
        self.order.remove(peer)
        if self.position == len(self.order):
            self.position = max(0, self.position - 1)

    def update(self, peer, state, number):
        if peer in self.peers:
            self.peers[peer] = [state, max(number, self.peers[peer][1])]

    def advance(self):
        self.position = (self.position + 1) % len(self.order)
        if self.position == 0:
            for place in range(len(self.order) - 1, 0, -1):
                other = self.draw() % (place + 1)
                self.order[place], self.order[other] = self.order[other], self.order[place]

    def pick(self, wanted, excluded=None):
        wanted = max(0, min(wanted, len(self.order) - (1 if excluded is None else 2)))
        picks = []
        while len(picks) < wanted:
            peer = self.order[self.position]
            self.advance()
            if peer not in (self.own, excluded):
                picks.append(peer)
        return picks

    # "Stop spreading old news"
    def emit(self, gossip):
        kind, _, subject, number = gossip
        death = kind == "d"
        if death and len(self.dead) >= HEAP:
            raise Refused(13)
        if self.settings["collect"]:
            def outdated(entry):
                _, _, about, held = entry[0]
                return about == subject and (held <= number if death else held < number)
            others = [entry for entry in self.alive if not outdated(entry)]
            if len(others) < len(self.alive):
                self.collected += len(self.alive) - len(others)
                self.alive = []
                for entry in others:
                    push(self.alive, entry)
        if not death and len(self.alive) >= HEAP:
            raise Refused(9)
        push(self.dead if death else self.alive, (gossip, 0, size(gossip)))
        self.said.append(gossip)

    # "Choosing gossip"
    def choose(self):
        share = (self.settings["selected"] + 1) // 2
        shares = [share, self.settings["selected"] - share]
        most = limit(len(self.order), self.settings["constant"])
        heaps, counts, noted, chosen, total = [self.alive, self.dead], [0, 0], set(), [], 0
        while (self.alive or self.dead) and not (counts[0] >= shares[0] and counts[1] >= shares[1]):
            gave = False
            for which, heap in enumerate(heaps):
                if not heap:
                    continue
                gossip, sends, length = heap[0]
                if total + length > self.settings["size"] or (gossip, sends) in noted:
                    continue
                gave, total, counts[which] = True, total + length, counts[which] + 1
                chosen.append(gossip)
                noted.add((gossip, sends + 1))
                if sends + 1 >= most:
                    remove_top(heap)
                else:
                    sink_top(heap, (gossip, sends + 1, length))
            if not gave:
                break
        return chosen

    # "Handler"
    def death(self, peer):
        if self.settings["remember"]:
            for gone, number in self.departed:
                if gone == peer:
                    return number
        return next((entry[0][3] for entry in self.dead if entry[0][2] == peer), None)

    def admitted_at(self, peer):
        death = self.death(peer)
        if death is None:
            return 0
        if death == LAST:
            raise Refused(6)
        return death + 1

    def item(self, record):
        if record == "n":
            return
        kind, _, peer, number = record
        listed = peer in self.peers
        state, held = self.peers.get(peer, (None, None))
        if kind == "j":
            number = max(self.admitted_at(peer), number)
            if listed and number <= held:
                return
            if listed:
                self.peers[peer] = [state, number]
            else:
                self.add(peer, number)
            self.emit(("j", self.own, peer, number))
        elif kind == "r":
            if listed and number > held:
                self.peers[peer] = ["a", number]
                self.emit(("r", self.own, peer, number))
        elif kind == "s" and peer == self.own:
            if number == LAST:
                raise Refused(6)
            self.emit(("r", self.own, self.own, number + 1))
        elif kind == "s":
            if listed and (number >= held if state == "a" else number > held):
                self.peers[peer] = ["s", number]
                self.emit(("s", self.own, peer, number))
        elif listed and number >= held:
            self.remove(peer, number)
            self.emit(("d", self.own, peer, number))

    def message(self, kind, sender, other, records):
        for place, record in enumerate(records):
            try:
                self.item(record)
            except Refused as refusal:
                raise Refused(f"{refusal} {place}")
        if kind == "ping":
            try:
                if sender not in self.peers:
                    number = self.admitted_at(sender)
                    self.add(sender, number)
                    self.emit(("j", self.own, sender, number))
            except Refused as refusal:
                raise Refused(f"{refusal} sender")
            target = sender if other is None else other
            return [(target, "ack", self.own, other, self.choose())]
        if kind == "req":
            return [(other, "ping", self.own, sender, self.choose())]
        if other is not None:
            return [(other, "ack", sender, None, records)]
        if sender in self.peers:
            self.peers[sender][0] = "a"
        return []

    # "Detector"
    def step(self, wait, now):
        state, since = wait[0], wait[-1]
        waits = {"ping": self.settings["interval"], "ack": self.settings["ping"], "reqack": self.settings["req"]}
        if (now - since) % ROUND < waits.get(state, 0):
            return None, wait
        if state == "ping":
            chosen, picks = self.choose(), self.pick(1)
            if not picks:
                return [], ("ping", now)
            peer = picks[0]
            self.peers[peer][0] = "p"
            return [(peer, "ping", self.own, None, chosen)], ("ack", peer, self.peers[peer][1], now)
        _, peer, number, _ = wait
        if state in ("ack", "reqack"):
            heard = self.peers.get(peer, ["a"])[0] == "a"
            return [], ("ping", now) if heard else ("req" if state == "ack" else "dead", peer, number, now)
        if state == "req":
            self.update(peer, "s", number)
            self.emit(("s", self.own, peer, number))
            picks = self.pick(self.settings["group"], peer)
            return [(asked, "req", self.own, peer, self.choose()) for asked in picks], ("reqack", peer, number, now)
        if len(self.timers) >= TIMERS:
            raise Refused(10)
        self.timers.append((peer, number, now))
        return [], ("ping", now)

    def end_timer(self, now):
        for place, (peer, number, since) in enumerate(self.timers):
            if (now - since) % ROUND >= self.settings["suspect"]:
                del self.timers[place]
                if peer not in self.peers:
                    return "gone"
                state, held = self.peers[peer]
                if state == "a" or held > number:
                    return "refuted"
                self.remove(peer, number)
                self.emit(("d", self.own, peer, number))
                return "ok 0"
        return "notdue"


def record_of(word):
    if word == "n":
        return word
    kind, *rest = word.split(":")
    return (kind, *map(int, rest))


def told(record):
    return record if record == "n" else "{}:{}:{}:{}".format(*record)


def optional(address):
    return "-" if address is None else str(address)


def line(*words):
    return " ".join(str(word) for word in words)


def state(node, wait):
    def heap(entries):
        return [f"{told(gossip)}*{sends}/{length}" for gossip, sends, length in entries]
    lamps = [sum(held[0] == letter for peer, held in node.peers.items() if peer != node.own) for letter in "aps"]
    yield line("@", node.position, *(f"{peer}:{node.peers[peer][0]}:{node.peers[peer][1]}" for peer in node.order))
    yield line("l", *lamps)
    yield line("+", *heap(node.alive))
    yield line("x", *heap(node.dead))
    yield line("t", *(f"{peer}:{number}:{since}" for peer, number, since in node.timers))
    yield line("w", *wait)
    yield line("d", *(f"{peer}:{number}" for peer, number in node.departed))


def call(node, wait, words, draws):
    """What a call answers, and the node and the wait record after it."""
    node.draws, messages, verb = draws, [], words[0]
    if verb == "add":
        peer, number = map(int, words[1:])
        if peer in node.peers:
            return "already", node, wait, []
        node.add(peer, number)
    elif verb == "step":
        messages, wait = node.step(wait, int(words[1]))
        if messages is None:
            return "notdue", node, wait, []
    elif verb == "timer":
        return node.end_timer(int(words[1])), node, wait, []
    else:
        other = None if words[2] == "-" else int(words[2])
        messages = node.message(verb, int(words[1]), other, [record_of(word) for word in words[3:]])
    return f"ok {node.used}", node, wait, messages


def answers(script):
    node = wait = None
    for number, text in enumerate(script, 1):
        if text.startswith("#"):
            continue
        if malformed(text.rstrip("\n").split(" ")):
            print("?", number)
            continue
        before, _, after = text.rstrip("\n").partition(" |")
        words, draws = before.split(), [int(word) for word in after.split()]
        if words[0] == "wait":
            wait = (words[1], *map(int, words[2:]))
            continue
        if words[0] == "new":
            names = ("interval", "ping", "req", "suspect", "group", "constant", "selected", "size")
            settings = dict(zip(names, map(int, words[1:9])), collect="collect" in words, remember="remember" in words)
            own, held, tick = map(int, words[9:12])
            node, wait = Node(settings, own, held), ("ping", tick)
            print("= ok 0")
        elif words[0] == "why":
            print("=", why(node.copy(), record_of(words[1]), draws))
        else:
            try:
                reply, node, wait, messages = call_on(node, wait, words, draws)
                print("=", reply)
                for target, kind, sender, other, records in messages:
                    print(line(">", target, kind, sender, optional(other), *map(told, records)))
                for gossip in node.said:
                    print("!", told(gossip))
                if node.settings["collect"] and reply.startswith("ok"):
                    print("~", node.collected)
            except Refused as refusal:
                print("= refused", refusal)
        for shown in state(node, wait):
            print(shown)


def malformed(words):
    """As far as the lines go that hold `collect` and `remember`."""
    return "" in words or words[0] == "new" and words[12:] not in ([], ["collect"], ["remember"], ["collect", "remember"])


def why(node, record, draws):
    """"Which rule decides it", with the held number, its own and D; or the refusal."""
    kind, _, peer, number = record
    state, held = node.peers.get(peer, (None, None))
    death = node.death(peer)
    own = kind == "s" and peer == node.own
    node.draws = draws
    try:
        node.item(record)
    except Refused as refusal:
        return f"refused {refusal}"
    if own:
        reason = "own"
    elif state is None and kind != "j":
        reason = "unknown"
    elif kind == "s" and state != "a" and number == held:
        reason = "equal"
    elif not node.said:
        reason = "low"
    else:
        reason = "raised" if node.said[0][3] > number else "accepted"
    return line("why", reason, optional(held), number, optional(death))


def call_on(node, wait, words, draws):
    """On a copy: a refused call keeps nothing."""
    return call(node.copy(), wait, words, draws)


def script(seed, calls, lent=(0, 3, 40, 400, 400), greatest=2**64):
    rng = random.Random(seed)
    left = calls
    while left > 0:
        peers = [65536 * (167772160 + place) + 7000 for place in range(1, rng.choice((3, 5, 9, 70, 200)))]
        own, now, top = peers[0], 0, rng.choice((2, 4, 12, 200))
        kinds, verbs = rng.choice(("jjrrssd", "jjrrssd", "jjd")), rng.choice((("ping", "ack", "ack", "req"), ("ack",)))
        options = rng.choice((" collect", " collect remember", " remember", " remember", ""))
        print(line("new", 3, 2, 2, 4, rng.randrange(5), rng.randrange(1, 9), rng.choice((1, 6, 64)), rng.choice((111, 400, 1169)), own, rng.randrange(3), now) + options)
        for _ in range(min(left, rng.choice((30, 120, 400)))):
            left -= 1
            draws = " |" + "".join(f" {rng.randrange(greatest)}" for _ in range(rng.choice(lent)))
            kind = rng.randrange(20)
            now += rng.randrange(4)
            if kind == 0:
                print(line("add", rng.choice(peers), rng.randrange(top)) + draws)
            elif kind < 6:
                print(line("step", now % ROUND) + draws)
            elif kind < 8:
                print(line("timer", now % ROUND))
            else:
                records = [
                    "n" if rng.randrange(20) == 0 else line(rng.choice(kinds), rng.choice(peers), rng.choice(peers), rng.randrange(top)).replace(" ", ":")
                    for _ in range(rng.choice((0, 1, 3, 9, 64)))
                ]
                verb = rng.choice(verbs)
                other = rng.choice(peers) if verb == "req" else rng.choice(["-", "-", rng.choice(peers)])
                print(line(verb, rng.choice(peers), other, *records) + draws)


def stored():
    own, peer, other = 1, 2, 3
    first = f"new 10 10 10 10 1 3 6 1169 {own} 0 0 collect"
    print("# an equal number stays, a lower one goes; the others keep their sends and are put in by the climb")
    print(first)
    for text in (f"add {peer} 1 | 0", f"add {other} 0 | 0", f"ack 9 - s:9:{peer}:1 s:9:{other}:0 |", f"req 9 {peer} |", f"ack 9 - r:9:{peer}:2 |",
                 f"ack 9 - s:9:{peer}:2 |", f"req 9 {peer} |", f"ack 9 - r:9:{peer}:3 r:9:{other}:1 |"):
        print(text)
    print("# a death takes an equal number too, by gossip and by a timer, and another's events stay")
    for text in (f"ack 9 - s:9:{peer}:3 s:9:{other}:1 |", f"ack 9 - d:9:{peer}:3 |", f"wait dead {other} 1 0", "step 0 |", "timer 10"):
        print(text)
    print("# the top goes, and of the others the last was sent less often: it climbs")
    print(first.replace(" 6 ", " 1 "))
    for text in (f"ack 9 - j:9:{other}:0 | 0", f"req 9 {other} |", f"req 9 {other} |", f"ack 9 - s:9:{own}:0 |", f"req 9 {other} |", f"ack 9 - j:9:{peer}:0 | 0",
                 f"ack 9 - r:9:{peer}:1 |"):
        print(text)
    print("# a full alive heap: 9 for an event that outdates nothing, room for one that does")
    print(first)
    for _ in range(2):
        print(line("ack", 9, "-", *[f"s:9:{own}:3"] * 64) + " |")
    for text in (f"ack 9 - j:9:{peer}:0 | 0", f"why j:9:{peer}:0 | 0", f"why s:9:{own}:4 |", f"ack 9 - s:9:{own}:4 j:9:{peer}:0 | 0"):
        print(text)
    print("# the same with the setting off")
    print(first.removesuffix(" collect"))
    for _ in range(2):
        print(line("ack", 9, "-", *[f"s:9:{own}:3"] * 64) + " |")
    print(f"ack 9 - s:9:{own}:4 |")
    print("# a full deceased heap: 13, and nothing of the collecting is kept")
    print(first)
    for death in range(4):
        pairs = [f"{kind}:9:{peer}:{32 * death + place}" for place in range(32) for kind in "jd"]
        print(line("ack", 9, "-", *pairs) + " |" + " 0" * 32)
    for text in (f"ack 9 - j:9:{peer}:500 | 0", f"ack 9 - d:9:{peer}:500 |", f"ack 9 - s:9:{peer}:500 d:9:{peer}:500 |"):
        print(text)
    print("# not of the form")
    for text in (first + " collect", first + " ", first.replace("collect", "collects"), first.replace(" collect", "  collect")):
        print(text)
    script(7, 300, (0, 3, 40), 1000)


def departed():
    own, peer, other = 1, 2, 3
    plain = f"new 10 10 10 10 1 3 6 1169 {own} 0 0"
    first = plain + " remember"

    def printed(*texts):
        for text in texts:
            print(text)

    def buried(peers, number):
        """They are added, and one message buries them: no more than the list has places for."""
        printed(*(f"add {gone} {number} | 0" for gone in peers), line("ack", 9, "-", *(f"d:9:{gone}:{number}" for gone in peers)) + " |")

    def sent(times):
        printed(*[f"req 9 {other} |"] * times)

    print("# what it is for: the death was sent often enough, and the peer comes back above it; by Joined, by its Ping")
    for begin in (first, plain):
        printed(begin, f"add {peer} 6 | 0", f"ack 9 - d:9:{peer}:7 |", *[f"req 9 {other} |"] * 3, f"why j:9:{peer}:0 | 0", f"ack 9 - j:9:{peer}:0 | 0")
        printed(begin, f"add {peer} 6 | 0", f"ack 9 - d:9:{peer}:7 |", *[f"req 9 {other} |"] * 3, f"ping {peer} - | 0")
    print("# a second removal moves to the end, with the greatest; an address that is listed again stays in the row")
    printed(first, f"ack 9 - j:9:{peer}:8 d:9:{peer}:8 j:9:{other}:1 d:9:{other}:1 | 0 0", f"add {peer} 2 | 0", f"ack 9 - d:9:{peer}:3 |", f"add {other} 5 | 0")
    print("# a timer removes at its own number, or doesn't")
    printed(f"wait dead {other} 6 0", "step 0 |", f"wait dead {peer} 6 0", "step 0 |", f"ack 9 - s:9:{other}:5 |", "timer 10", "timer 10", "timer 10")
    print("# what it is not: one that made room begins anew, here at 0 after 5, and at 1")
    printed(first)
    buried([peer], 5)
    sent(3)
    for start, end in ((100, 163), (163, 226), (226, 228)):
        buried(range(start, end), 0)
        sent(6)
    printed(f"why j:9:{peer}:0 | 0", f"ack 9 - j:9:{peer}:0 | 0", f"ack 9 - d:9:{peer}:1 |", f"why j:9:{peer}:0 | 0")
    print("# nor this: the row's D is taken, 1, though the heap still holds a greater one, 9, from before it made room")
    printed(f"new 10 10 10 10 1 2 1 111 {own} 0 0 remember")
    buried([peer], 9)
    for start, end in ((100, 163), (163, 226), (226, 227)):
        buried(range(start, end), 0)
    sent(33)
    buried([300], 0)
    buried([peer], 1)
    sent(2)
    print(f"why j:9:{peer}:0 | 0")
    print("# D + 1 of the last number: 6")
    printed(first, f"ack 9 - j:9:{peer}:{LAST} d:9:{peer}:{LAST} j:9:{peer}:0 | 0 0", f"ack 9 - j:9:{peer}:{LAST} d:9:{peer}:{LAST} | 0", f"why j:9:{peer}:0 | 0", f"ping {peer} - | 0")
    print("# not of the form")
    printed(first + " remember", first + " collect", first + " ", first + "s", plain + "  remember", plain + " collect remember", plain + " collect")
    script(12, 150, (0, 3, 40), 1000)


if __name__ == "__main__":
    if sys.argv[1:] == ["answers"]:
        answers(sys.stdin)
    elif sys.argv[1:] == ["stored"]:
        stored()
    elif sys.argv[1:] == ["departed"]:
        departed()
    elif len(sys.argv) == 4 and sys.argv[1] == "script":
        script(int(sys.argv[2]), int(sys.argv[3]))
    else:
        sys.exit(__doc__)
