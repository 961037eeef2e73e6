#!/usr/bin/env python3
"""What salvage must answer to damaged images, reasoned from the change requests' words and from nothing of the port.

    oracle/salvage_answers.py crates/salvage_flips crates/salvager

writes the first program's input (a small image of version 1 and of version 2, then a full one of each) and the answers
that it must print: every single-bit flip and every truncation of the small images; for the full ones all flips, summed
up. The second gets an image with every kind of damage, and the image that must be left of it. A line is `flip BIT` or
`cut LENGTH`, then `refused NUMBER`, or the count as it stands, a letter for each place (k kept, a address, s state,
r repeat, c cut), and the result in hexadecimal.
"""
import sys
from collections import Counter

MARK = b"MBR"
WIDTH = {1: 8, 2: 19}            # the bytes of an address, by the version


def header(version):
    """Mark, 16-bit version, own address, count: 14 bytes, or 25."""
    return 3 + 2 + WIDTH[version] + 1


def record(version):
    """Address, state, 8 bytes of number: 17 bytes, or 28."""
    return WIDTH[version] + 1 + 8


# An address: family, first and last 64 bits, port.
def v4(number):
    """ip * 65536 + port; from 2^48 on it has more than 32 bits of ip."""
    return 4, 0, number >> 16, number & 65535


def v6(high, low, port):
    return 6, high, low, port


def address_bytes(version, address):
    family, high, low, port = address
    if version == 1:
        assert family == 4 and high == 0
        return (low << 16 | port).to_bytes(8, "big")
    return bytes([family]) + high.to_bytes(8, "big") + low.to_bytes(8, "big") + port.to_bytes(2, "big")


def address_in(version, data):
    if version == 1:
        return v4(int.from_bytes(data, "big"))
    return data[0], int.from_bytes(data[1:9], "big"), int.from_bytes(data[9:17], "big"), int.from_bytes(data[17:19], "big")


def in_range(address):
    family, high, low, _ = address
    return family == 6 or (family == 4 and high == 0 and low < 2**32)


def version_for(own, records):
    """Version 2 exactly if own or a listed address is IPv6."""
    return 2 if any(a[0] == 6 for a in [own] + [r[0] for r in records]) else 1


def packed(own, records, position, version=None, count=None, mark=MARK):
    """A list in bytes; what it says of itself may be given otherwise."""
    layout = version_for(own, records) if version is None else version if version in WIDTH else 1
    out = mark + (layout if version is None else version).to_bytes(2, "big") + address_bytes(layout, own)
    out += bytes([len(records) if count is None else count])
    for address, state, number in records:
        out += address_bytes(layout, address) + bytes([state]) + number.to_bytes(8, "big")
    return out + bytes([position])


def version_in(data):
    """The version of an image, or None: 14."""
    if len(data) < 5 or data[:3] != MARK:
        return None
    version = int.from_bytes(data[3:5], "big")
    return version if version in WIDTH else None


def own_in(version, data):
    return address_in(version, data[5:5 + WIDTH[version]])


def record_in(version, data):
    width = WIDTH[version]
    return address_in(version, data[:width]), data[width], int.from_bytes(data[width + 1:], "big")


def salvage(data):
    version = version_in(data)
    if version is None:
        return 14
    head, size = header(version), record(version)
    if len(data) < head or not in_range(own_in(version, data)):
        return 16
    own, count = own_in(version, data), data[head - 1]
    places = 64 if count > 64 else count
    kept, words = [], ""
    for i in range(places):
        start = head + i * size
        place = data[start:start + size]
        if len(place) < size:
            words += "c"
            continue
        address, state, number = record_in(version, place)
        if not in_range(address):
            words += "a"
        elif state > 2:
            words += "s"
        elif any(address == k[0] for k in kept):
            words += "r"
        else:
            words += "k"
            kept.append((address, state, number))
    end = head + places * size
    position = data[end] if end < len(data) else 0
    return count, words, packed(own, kept, position if position < len(kept) else 0)


def line(answer):
    if isinstance(answer, int):
        return f"refused {answer}"
    count, words, result = answer
    return f"{count} {words or '-'} < {result.hex()}"


def flipped(data, bit):
    out = bytearray(data)
    out[bit // 8] ^= 1 << bit % 8
    return bytes(out)


def ip(a, b, c, d, port):
    return v4((a << 24 | b << 16 | c << 8 | d) << 16 | port)


def each_answer(image):
    lines = [f"flip {bit} " + line(salvage(flipped(image, bit))) for bit in range(len(image) * 8)]
    return lines + [f"cut {n} " + line(salvage(image[:n])) for n in range(len(image))]


def summed_up(image):
    ends, words = Counter(), Counter()
    size = 0
    for bit in range(len(image) * 8):
        answer = salvage(flipped(image, bit))
        if isinstance(answer, int):
            ends[answer] += 1
        else:
            words.update(answer[1])
            size += len(answer[2])
    return f"full {len(image) * 8} flips, refused 14 {ends[14]} 16 {ends[16]}, words k {words['k']} a {words['a']} s {words['s']} r {words['r']} c {words['c']}, bytes {size}"


def main(folder, tool):
    own = ip(10, 0, 0, 1, 7000)
    # Two addresses one bit apart, so that a flip makes a repeat; a position that a drop puts out of range.
    small = packed(own, [(ip(10, 0, 0, 2, 7000), 0, 5), (ip(10, 0, 0, 3, 7000), 2, 2**64 - 1), (own, 1, 0)], 2)
    # One of IPv6, ::10.0.0.2, and the same bits as IPv4: a flip of a family makes a repeat, and dropped or turned into IPv4 the list has none.
    mixed = packed(own, [(v6(0, 10 << 24 | 2, 7000), 0, 5), (ip(10, 0, 0, 2, 7000), 2, 2**64 - 1), (own, 1, 0)], 2)
    full = packed(own, [(ip(10, 0, i // 8, i, 7000), i % 3, i * i) for i in range(64)], 63)
    wide = packed(
        v6(0x20010DB8 << 32, 1, 7000),
        [(v6(0x20010DB8 << 32, i // 2, 7000) if i % 2 else ip(10, 0, i // 8, i, 7000), i % 3, i * i) for i in range(64)], 63)
    assert [len(image) for image in (small, mixed, full, wide)] == [66, 110, 1103, 1818]
    lines = each_answer(small) + each_answer(mixed) + [summed_up(full), summed_up(wide)]
    with open(f"{folder}/stdin", "wb") as f:
        f.write(small + mixed + full + wide)
    with open(f"{folder}/stdout", "w") as f:
        f.write("\n".join(lines) + "\n")

    # Each word, an address out of range in either way and as a family that is none, and a repeat of a dropped one, which is kept; the position is out of range of what is kept.
    bad = packed(own, [
        (v6(0x20010DB8 << 32, 2, 7000), 0, 5), (v4(2**48), 0, 1), ((5, 0, 10 << 24 | 2, 7000), 0, 1), (ip(10, 0, 0, 4, 7000), 3, 1),
        (v6(0x20010DB8 << 32, 2, 7000), 1, 9), (ip(10, 0, 0, 4, 7000), 2, 2**64 - 1), (v6(0, 0xFFFF0A000002, 65535), 1, 0)], 4)
    bad = bad[:header(2) + 6 * record(2) + 8]
    with open(f"{tool}/stdin", "wb") as f:
        f.write(bad)
    with open(f"{tool}/stdout", "wb") as f:
        f.write(salvage(bad)[2])


if __name__ == "__main__":
    main(sys.argv[1], sys.argv[2])
