#!/usr/bin/env python3
"""Scripts of saved lists and what is answered to them, reasoned from the words of the request and from nothing of the port.

usage: oracle/images.py script | answers

They stand in oracle/stored/saved.script and saved.answers. The published Rust has no saved lists, so
this is their judge: the layout is packed by hand, and each refusal is asked for in the order of the request."""
import sys

sys.dont_write_bytecode = True
from salvage_answers import flipped, header, in_range, own_in, packed, record, record_in, salvage, v4, v6, version_in

SETTINGS = "10 10 10 10 1 3 6 1169"
TICK = 7
OWN, PEER, OTHER = v4(10 * 2**40 + 2**16 + 7000), v4(10 * 2**40 + 2 * 2**16 + 7000), v4(10 * 2**40 + 3 * 2**16 + 7000)
WIDE, NEAR = v6(0x20010DB8 << 32, 1, 7000), v6(0x20010DB8 << 32, 0, 7000)


def restored(image, settings_in_range=True):
    """14, 15, 16, then 1, or the list."""
    version = version_in(image)
    if version is None:
        return 14
    head, size = header(version), record(version)
    if len(image) < head or len(image) != head + size * image[head - 1] + 1:
        return 15
    own, count, position = own_in(version, image), image[head - 1], image[-1]
    members = [record_in(version, image[head + size * i : head + size * (i + 1)]) for i in range(count)]
    addresses = [m[0] for m in members]
    if count > 64 or not all(in_range(a) for a in addresses + [own]) or any(m[1] > 2 for m in members):
        return 16
    if len(set(addresses)) < count or not (position < count or (count == 0 and position == 0)):
        return 16
    if version == 2 and all(a[0] == 4 for a in addresses + [own]):
        return 16
    return (own, members, position) if settings_in_range else 1


def word(address):
    """One number for IPv4, HIGH.LOW.PORT for IPv6."""
    family, high, low, port = address
    return f"{high}.{low}.{port}" if family == 6 else f"{low * 65536 + port}"


def state(node):
    own, members, position = node
    letters = "aps"
    lit = [sum(1 for a, s, _ in members if a != own and s == state) for state in range(3)]
    row = "".join(f" {word(a)}:{letters[s]}:{n}" for a, s, n in members)
    return [f"@ {position}{row}", "l %d %d %d" % tuple(lit), "+", "x", "t", f"w ping {TICK}", "d"]


class Host:
    def __init__(self):
        self.node, self.script, self.answers = None, [], []

    def remark(self, text):
        self.script.append("# " + text)

    def create(self, own, number):
        """A node that lists itself."""
        self.script.append(f"new {SETTINGS} {word(own)} {number} {TICK}")
        self.node = own, [(own, 0, number)], 0
        self.answers += ["= ok 0"] + state(self.node)

    def add(self, peer, number):
        """With the draw 0 a peer comes first."""
        self.script.append(f"add {word(peer)} {number} | 0")
        own, members, position = self.node
        self.node = own, [(peer, 0, number)] + members, position
        self.answers += ["= ok 1"] + state(self.node)

    def restore(self, image, settings=SETTINGS, in_range=True):
        self.script.append(f"restore {settings} {TICK} {image.hex() or '-'}")
        result = restored(image, in_range)
        self.node = None if isinstance(result, int) else result
        if self.node is None:
            self.answers.append(f"= refused {result}")
        else:
            self.answers += ["= ok 0"] + state(self.node)

    def save(self, room):
        self.script.append(f"save {room}")
        if self.node is None:
            self.answers.append("= none")
            return
        image = packed(*self.node)
        told = ["= ok 0", "< " + image.hex()] if len(image) <= room else ["= refused 12"]
        self.answers += told + state(self.node)

    def salvage(self, room, image):
        """No node is needed, and no state follows."""
        self.script.append(f"salvage {room} {image.hex() or '-'}")
        result = salvage(image)
        if not isinstance(result, int) and room < len(result[2]):
            result = 12
        if isinstance(result, int):
            self.answers.append(f"= refused {result}")
            return
        count, letters, left = result
        words = {"k": " kept", "a": " address", "s": " state", "r": " repeat", "c": " cut"}
        self.answers += ["= ok 0", "< " + left.hex(), f"% {count}" + "".join(words[c] for c in letters)]

    def malformed(self, line):
        """A line that is not of the form, at its number."""
        self.script.append(line)
        self.answers.append(f"? {len(self.script)}")


def of_version_1(host):
    two = [(PEER, 2, 5), (OWN, 0, 3)]
    good = packed(OWN, two, 1)
    host.remark("before there is a node")
    host.save(65536)
    host.remark("the list of two, and rooms that are just enough and one short")
    host.restore(good)
    host.save(len(good))
    host.save(len(good) - 1)
    host.save(0)
    host.save(65536)
    host.remark("14: the mark, the version, fewer than 5 bytes")
    for image in (b"", b"MBR\0", b"MBS\0\1" + good[5:], packed(OWN, two, 1, version=0), packed(OWN, two, 1, version=3), b"mBR" + good[3:]):
        host.restore(image)
    host.save(100)
    host.remark("15: no count, a length not as it says")
    for image in (good[:5], good[:13], good[:14], good[:-1], good + b"\0", packed(OWN, [], 0)[:-1], packed(OWN, two, 1, count=65)):
        host.restore(image)
    host.remark("16: each field, and beside it what is just in rule")
    top, over = v4(2**48 - 1), v4(2**48)
    many = [(v4(10 * 2**40 + 2**17 + 7000 + i), i % 3, 2**64 - 1 - i) for i in range(255)]
    for image in (
        packed(OWN, many[:64], 63), packed(OWN, many[:64], 64), packed(OWN, many[:65], 0), packed(OWN, many, 0),
        packed(top, two, 0), packed(over, two, 0), packed(OWN, [(top, 1, 0)], 0), packed(OWN, [(over, 1, 0)], 0),
        packed(OWN, [(PEER, 2, 0)], 0), packed(OWN, [(PEER, 3, 0)], 0), packed(OWN, [(PEER, 255, 0)], 0),
        packed(OWN, [(PEER, 0, 0), (OTHER, 0, 0), (PEER, 0, 1)], 0), packed(OWN, [], 0), packed(OWN, [], 1), packed(OWN, two, 2),
    ):
        host.restore(image)
        host.save(1103)
    host.remark("1 comes last")
    wrong = SETTINGS.replace("1169", "1170")
    host.restore(good, wrong, False)
    host.restore(packed(OWN, two, 2), wrong, False)
    host.restore(good[:-1], wrong, False)
    host.restore(good, SETTINGS.replace("1169", "110"), False)
    host.restore(good)
    host.remark("lines that are not of the form")
    for line in (
        "save", "save 65537", "save 10 10", "save -", "restore " + SETTINGS + " 7", "restore " + SETTINGS + " " + good.hex(),
        "restore " + SETTINGS + " 7 4", "restore " + SETTINGS + " 7 4D", "restore " + SETTINGS + " 7 4d |", "restore " + SETTINGS + " 4294967296 4d",
    ):
        host.malformed(line)
    host.save(len(good))
    host.remark("every image that is cut short")
    for end in range(len(good)):
        host.restore(good[:end])
    host.remark("every image with one bit turned")
    for bit in range(8 * len(good)):
        host.restore(flipped(good, bit))
    host.remark("salvage: what restore accepts, with a room that is just enough and one short; the node stays")
    for room in (len(good), len(good) - 1, 0, 65536):
        host.salvage(room, good)
    host.restore(good)
    host.salvage(65536, packed(OTHER, [], 0))
    host.save(65536)
    host.remark("14, then 16, then 12")
    for image in (b"", b"MBR\0", packed(OWN, two, 1, version=3), good[:5], good[:13], good[:14], packed(over, two, 0), packed(top, two, 0), good[:12] + b"\0"):
        host.salvage(15, image)
        host.salvage(65536, image)
    host.remark("each word, a repeat of a dropped one, the first of two, positions")
    bad, odd = (over, 0, 1), (OTHER, 3, 1)
    for members in ([bad], [odd], [bad, (over, 3, 1)], [odd, (OTHER, 2, 9)], [(PEER, 0, 1), (PEER, 1, 2)], [(PEER, 0, 1), (PEER, 3, 2)], [odd, (PEER, 1, 2), bad, (PEER, 0, 1), (OWN, 2, 3)]):
        for position in (0, 1, 2, 255):
            host.salvage(1103, packed(OWN, members, position))
    host.remark("counts over 64, places that are cut, what follows is ignored")
    for count in (63, 64, 65, 255):
        host.salvage(1103, packed(OWN, many[:count], 62))
        host.salvage(1103, packed(OWN, many[:64], 63, count=count))
        host.salvage(1103, packed(OWN, two, 1, count=count))
    host.salvage(1103, good + b"\1\2\3")
    host.salvage(1102, packed(OWN, many[:64], 63))
    host.remark("lines that are not of the form")
    for line in ("salvage", "salvage 10", "salvage 65537 4d", "salvage 10 4d |", "salvage - 4d", "salvage 10 4", "salvage 10 4D", "salvage 10 4d 4d"):
        host.malformed(line)
    host.save(65536)


def of_version_2(host):
    three = [(WIDE, 2, 5), (OWN, 0, 3), (PEER, 1, 2**64 - 1)]
    good = packed(OWN, three, 2)
    host.remark("version 2 exactly if own or a listed address is IPv6: a node that lists itself, and takes a peer")
    for own, peer in ((OWN, WIDE), (WIDE, OWN), (OWN, PEER), (WIDE, NEAR)):
        host.create(own, 4)
        host.save(65536)
        host.add(peer, 9)
        host.save(65536)
    host.remark("a mixed list, and rooms that are just enough and one short")
    host.restore(good)
    host.save(len(good))
    host.save(len(good) - 1)
    host.restore(packed(WIDE, [], 0))
    host.save(26)
    host.save(25)
    host.remark("14: any version but 1 and 2")
    for version in (0, 3, 258, 512, 513, 65535):
        host.restore(good[:3] + version.to_bytes(2, "big") + good[5:])
    host.remark("15: no count, a length not as it says; an image of one version that says the other")
    plain = packed(OWN, three[1:], 0)
    for image in (
        good[:5], good[:24], good[:25], good[:26], good + b"\0", packed(OWN, three, 2, count=2), packed(OWN, three, 2, count=65),
        plain[:4] + b"\2" + plain[5:], good[:4] + b"\1" + good[5:],
    ):
        host.restore(image)
    host.remark("16: no IPv6, and beside it own or one that is")
    for image in (
        packed(OWN, three[1:], 1, version=2), packed(WIDE, three[1:], 1), packed(OWN, [], 0, version=2), packed(WIDE, [], 0), packed(OWN, three[:1], 0),
    ):
        host.restore(image)
        host.save(1818)
    host.remark("16: a family that is neither, of own and of a record; more than 32 bits of IPv4, byte by byte")
    for family in (0, 3, 4, 5, 6, 7, 255):
        host.restore(packed((family, 0, 9, 7000), three, 0))
        host.restore(packed(OWN, three[:1] + [((family, 0, 9, 7000), 1, 1)], 0))
    for byte in range(16):
        bits = 1 << 8 * (15 - byte)
        odd = bits >> 64, bits % 2**64
        lists = [three[:1] + [((family, *odd, 7000), 1, 1)] for family in (4, 6)]
        for image in (packed((4, *odd, 7000), three, 0), packed(OWN, lists[0], 0), packed(OWN, lists[1], 0)):
            host.restore(image)
            host.salvage(1818, image)
    host.remark("16: IPv4, mapped and compatible are different addresses; family, address and port must all agree for a repeat")
    low = 10 << 24 | 2
    forms = [PEER, v6(0, low, 7000), v6(0, 0xFFFF << 32 | low, 7000), v6(0, low, 7001), v6(1, low, 7000), v6(2**64 - 1, 2**64 - 1, 65535), v6(0, 0, 0)]
    host.restore(packed(OWN, [(a, 0, 1) for a in forms], 0))
    host.save(1818)
    for a in forms:
        again = packed(OWN, [(b, 0, 1) for b in forms] + [(a, 1, 2)], 7)
        host.restore(again)
        host.salvage(1818, again)
    host.remark("16: a state, a position, a count; beside each what is just in rule")
    many = [(v6(2**64 - 1 - i, i, 65535 - i) if i % 3 else v4(10 * 2**40 + i), i % 3, 2**64 - 1 - i) for i in range(255)]
    for image in (
        packed(OWN, many[:64], 63), packed(OWN, many[:64], 64), packed(OWN, many[:65], 0), packed(OWN, many, 0),
        packed(OWN, [(WIDE, 2, 0)], 0), packed(OWN, [(WIDE, 3, 0)], 0), packed(WIDE, [], 1), packed(OWN, three, 3),
    ):
        host.restore(image)
        host.save(1818)
    host.save(1817)
    host.remark("1 comes last")
    wrong = SETTINGS.replace("1169", "1170")
    host.restore(good, wrong, False)
    host.restore(packed(OWN, three[1:], 1, version=2), wrong, False)
    host.restore(good)
    host.remark("every image that is cut short, every image with one bit turned")
    for end in range(len(good)):
        host.restore(good[:end])
    for bit in range(8 * len(good)):
        host.restore(flipped(good, bit))
    host.restore(good)
    host.remark("salvage: what restore accepts, with a room that is just enough and one short; the node stays")
    for room in (len(good), len(good) - 1, 65536):
        host.salvage(room, good)
    host.save(65536)
    host.remark("14, then 16: a header of 24 bytes, own out of range; then 12")
    for image in (
        good[:3] + b"\0\3" + good[5:], good[:5], good[:14], good[:24], good[:25], good[:26], packed((5, 0, 9, 7000), three, 0),
        packed((4, 1, 9, 7000), three, 0), packed((4, 0, 2**32, 7000), three, 0), packed((4, 0, 2**32 - 1, 7000), three, 0), packed(WIDE, [], 0),
    ):
        for room in (14, 15, 25, 26, 65536):
            host.salvage(room, image)
    host.remark("only kept records count: without IPv6 among them the result is of version 1, and needs no more room than that")
    odd, fifth, cut = (WIDE, 3, 1), ((5, 0, 10 << 24 | 9, 7000), 0, 1), packed(OWN, three[1:] + three[:1], 2)[:-2]
    for image in (
        packed(OWN, [odd], 0), packed(OWN, [odd] + three[1:], 2), packed(OWN, [fifth] + three[1:], 1, version=2), packed(OWN, three[1:], 1, version=2),
        packed(OWN, [], 0, version=2), cut, packed(OWN, [odd, (WIDE, 0, 2)], 1), packed(OWN, [(WIDE, 0, 1), (WIDE, 0, 2), odd], 1),
        packed(WIDE, [odd, fifth], 1), packed(WIDE, three[1:], 0),
    ):
        for room in (15, 31, 32, 48, 49, 50, 53, 54, 81, 82, 1818):
            host.salvage(room, image)
    host.remark("each word, positions")
    more = ((4, 1, 1, 1), 3, 0)
    for members in ([fifth, three[0]], [odd, fifth, three[0], (NEAR, 1, 2), three[0]], [three[0], more, (WIDE, 3, 0), (WIDE, 1, 0), three[1]]):
        for position in (0, 1, 2, 255):
            host.salvage(1818, packed(OWN, members, position))
    host.remark("counts over 64, places that are cut, what follows is ignored")
    for count in (63, 64, 65, 255):
        host.salvage(1818, packed(OWN, many[:count], 62))
        host.salvage(1818, packed(OWN, many[:64], 63, count=count))
        host.salvage(1818, packed(OWN, three, 1, count=count))
    host.salvage(1818, good + b"\1\2\3")
    host.salvage(1817, packed(OWN, many[:64], 63))
    host.save(65536)


def told():
    host = Host()
    of_version_1(host)
    of_version_2(host)
    return host


if __name__ == "__main__":
    if len(sys.argv) != 2 or sys.argv[1] not in ("script", "answers"):
        sys.exit(__doc__)
    host = told()
    print("\n".join(host.script if sys.argv[1] == "script" else host.answers))
