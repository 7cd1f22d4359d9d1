"""tapes.py FOLDER: writes tapes for the hosts to FOLDER, each NAME.tape with a NAME.memory beside it. The same ones each time."""
import os
import random
import sys


def record(*first):
    return bytes(first) + bytes(8 - len(first))


def advance(n):
    return bytes([5, 0, 0, 0]) + n.to_bytes(4, "little")


def likely(r):
    """A record that mostly is taken, or refused for what the board is at."""
    ports = [0x00, 0x01, 0x10, 0x11, 0x12] + list(range(0x20, 0x30))
    k = r.randrange(24)
    if k == 0:
        return record(1, 0x00, r.randrange(256) | 0x12)
    if k == 1:
        return record(1, 0x01, r.choice([0, 0x40, r.randrange(256)]))
    if k == 2:
        return record(1, 0x00, r.randrange(256) & 0xEF)
    if k == 3:
        return record(1, 0x13, r.randrange(3) << 6 | r.randrange(4) << 4 | r.randrange(8) << 1)
    if k in (4, 5):
        return record(1, 0x10 + r.randrange(3), r.choice([0, 1, 2, 3, r.randrange(256)]))
    if k == 6:
        return record(1, 0x21, r.randrange(8))
    if k == 7:
        return record(1, r.choice([0x22, 0x24, 0x25]), r.randrange(256))
    if k == 8:
        return record(1, r.choice([0x23, 0x26]), 0)
    if k == 9:
        return record(1, 0x2A, r.choice([0, 0x40, 0x80]) | r.randrange(4) << 4 | r.randrange(3) << 2)
    if k == 10:
        return record(1, r.choice([0x28, 0x2F]), r.choice([0, 0, 0x10]))
    if k in (11, 12):
        return record(2, r.choice(ports))
    if k == 13:
        return record(3, 0, r.randrange(128) * 2)
    if k == 14:
        return record(3, 1, r.choice([7, 7, r.randrange(8)]))
    if k == 15:
        return record(3, 2, r.randrange(16))
    if k == 16:
        return record(4)
    if k == 17:
        return advance(r.choice([0, 1, 2, 3, r.randrange(300)]))
    if k == 18:
        return r.choice([record(1, 0x20, r.choice([2, 2, 2, 0, 3])), record(1, 0x2A, r.choice([0, 0x40, 0x80]) | r.randrange(4) << 4 | r.randrange(3) << 2 | 1)])
    return record(6, r.randrange(2), r.randrange(256), r.randrange(256))


def mixed(seed, n, wild):
    r = random.Random(seed)
    out = []
    for _ in range(n):
        x = bytearray(likely(r))
        if r.randrange(100) < wild:
            x[r.randrange(8)] = r.randrange(256)
        if r.randrange(3000) == 0:
            x = record(0)
        out.append(bytes(x))
    return b"".join(out)


def requests(seed, n):
    """Lines that rise and fall, most of them before an acknowledge, and OUT0 that does so in an advance, by a mode word and by a count."""
    r = random.Random(seed)
    out = []
    lines = 0
    for i in range(n):
        k = r.randrange(16)
        if i % 500 == 0:
            # vector; CALL with either gap; self-FI; level trigger
            iw1, iw4 = [(0x13, 1), (0x17, 0), (0xF3, 0), (0x13, 3), (0x1B, 1)][i // 500 % 5]
            out += [record(1, 0x00, iw1), record(1, 0x01, 0x40), record(1, 0x01, iw4), record(1, 0x00, 0x80)]
        elif k == 0:
            out.append(record(1, 0x01, r.choice([0, 0, 0, r.randrange(256)])))
        elif k == 1:
            out.append(record(1, 0x00, r.choice([0x20, 0x20, 0x60, 0xA0, 0xE0]) | r.randrange(8)))
        elif k == 2:
            out.append(record(1, 0x00, r.choice([0x0A, 0x0B])))
        elif k == 3:
            out.append(record(2, 0x00))
        elif k == 4:
            out.append(record(1, 0x13, 0x10 | r.randrange(6) << 1))
        elif k == 5:
            out.append(record(1, 0x10, 2 + r.randrange(3)))
        elif k in (6, 7):
            out.append(advance(r.randrange(6)))
        elif k in (8, 9, 10):
            out.append(record(4))
        else:
            lines ^= 2 << r.randrange(7)
            out.append(record(3, 0, lines))
    return b"".join(out)


def slave(seed, n):
    """Two interrupt chips: both extended, in vector and in CALL mode, and the other ways to set them up; lines of both, finish commands, acknowledges."""
    r = random.Random(seed)
    out = []
    lines = slaves = 0

    def words(port, iw1, iw4):
        iw3 = 0x07 if port else 0x80
        return ([record(1, port, iw1), record(1, port + 1, r.randrange(256))]
                + ([record(1, port + 1, iw3 ^ 1), record(1, port + 1, iw3)] if iw1 & 2 == 0 else [])
                + ([record(1, port + 1, iw4)] if iw1 & 1 else []))

    # (IW1, IW4) of the master and of the slave; the last three are refused at an acknowledge
    ways = [((0x11, 1), (0x11, 1)), ((0x10, 0), (0xF4, 0)), ((0x11, 3), (0x19, 1)), ((0x19, 1), (0x11, 3)), ((0x19, 1), (0x19, 1)),
            ((0x13, 1), (0x13, 1)), ((0x11, 1), (0x10, 0)), ((0x11, 1), (0x13, 1)), ((0x13, 1), (0x11, 1))]
    for i in range(n):
        k = r.randrange(32)
        port = r.choice([0x00, 0x30])
        if i % 400 == 0:
            master, other = ways[i // 400 % len(ways)]
            out += words(0x00, *master) + words(0x30, *other)
        elif k == 0:
            out.append(record(1, port + 1, r.choice([0, 0, 0, 1 << r.randrange(8)])))
        elif k == 1:
            out.append(record(1, port, r.choice([0x80, 0xC0 | r.randrange(8)])))
        elif k == 2:
            out.append(record(1, port, r.choice([0x0A, 0x0B])))
        elif k in (3, 4):
            out.append(record(2, port + r.choice([0, 0, 0, 1])))
        elif k == 5:
            out.append(record(1, 0x13, 0x10 | r.randrange(6) << 1))
        elif k == 6:
            out.append(advance(r.randrange(6)))
        elif k < 14:
            out.append(record(1, port, r.choice([0x20, 0x20, 0x60, 0xA0, 0xE0]) | r.randrange(8)))
        elif k < 17:
            out += [record(1, 0x30, 0x20), record(1, 0x00, 0x20)]
        elif k < 20:
            lines ^= r.choice([0x80, 2 << r.randrange(7)])
            out.append(record(3, 0, lines))
        elif k < 25:
            out.append(record(4))
        else:
            slaves ^= 1 << r.randrange(8)
            out.append(record(3, 3, slaves))
    return b"".join(out)


def outside(length):
    """Blocks of six units across the memory's end, and across FFFFFFH: each direction, mode and way, with what the channel is at after each. A unit at the
    last byte is inside; one at the length, or further, is outside."""
    out = []
    for end in (length, 1 << 24):
        for direction in (0x00, 0x04, 0x08):
            for mode in (0x00, 0x40, 0x80):
                for falls in (0x00, 0x20):
                    first = (end + 2 if falls else end - 3) % (1 << 24)
                    out += [record(1, 0x22, 5), record(1, 0x23, 0)]
                    out += [record(1, 0x24 + i, first >> 8 * i & 255) for i in range(3)]
                    out += [record(1, 0x2A, mode | falls | direction), record(1, 0x2F, 0x0E), record(3, 2, 1)]
                    # in single, a grant before each unit; a cycle too many moves nothing
                    out += [record(6, 0, 0x40 + i) for i in range(13 if mode == 0x40 else 8)]
                    out += [record(3, 2, 0)] + [record(2, 0x22 + i) for i in range(5)] + [record(2, 0x2B)]
    return b"".join(out)


def words(length):
    """Blocks of words across the memory's end, and across FFFFFFH, from an even address and from an odd one: each direction, mode and way, with what the channel
    is at after each. Before them, and between, register 0: words that are refused on the narrow bus, a narrow bus that is refused while a channel has words, and
    resets with either width."""
    out = [record(1, 0x2A, 0x85), record(1, 0x20, 2)]
    for end in (length, 1 << 24):
        for direction in (0x00, 0x04, 0x08):
            for mode in (0x00, 0x40, 0x80):
                for falls in (0x00, 0x20):
                    for odd in (0, 1):
                        first = ((end & ~1) + (4 if falls else -4) + odd) % (1 << 24)
                        out += [record(1, 0x22, 4), record(1, 0x23, 0)]
                        out += [record(1, 0x24 + i, first >> 8 * i & 255) for i in range(3)]
                        out += [record(1, 0x2A, mode | falls | direction | 1), record(1, 0x20, 0), record(1, 0x2F, 0x0E), record(3, 2, 1)]
                        out += [record(6, 0, 0x40 + i, 0x60 + i) for i in range(11 if mode == 0x40 else 7)]
                        out += [record(3, 2, 0)] + [record(2, 0x22 + i) for i in range(5)] + [record(2, 0x2B)]
        out += [record(1, 0x20, 1), record(1, 0x2A, 0x41), record(1, 0x20, 3), record(1, 0x2A, 0x41), record(1, 0x2A, 0x43)]
    return b"".join(out)


def main(folder):
    os.makedirs(folder, exist_ok=True)
    r = random.Random(71)
    tapes = {
        "empty": (b"", 0),
        "cut": (mixed(1, 5, 0)[:-3], 16),
        "mixed": (mixed(2, 20000, 5), 65536),
        "small-memory": (mixed(3, 20000, 2), 100),
        "no-memory": (mixed(4, 5000, 2), 0),
        "noise": (bytes(r.choice([0, 0, 0, 0, r.randrange(7), r.randrange(256)]) for _ in range(80003)), 4096),
        "long-advances": (
            record(1, 0x00, 0x13) + record(1, 0x01, 0x40) + record(1, 0x01, 0x01)
            + b"".join(record(1, 0x13, c << 6 | 0x14) + record(1, 0x10 + c, 5 + c) for c in range(3))
            + b"".join(advance(65535 - i) + record(4) + record(1, 0x00, 0x20) for i in range(6)), 0),
        "modes": (
            record(1, 0x00, 0x13) + record(1, 0x01, 0x40) + record(1, 0x01, 0x01)
            + b"".join(
                b"".join(record(1, 0x13, c << 6 | 0x10 | mode << 1) + record(1, 0x10 + c, 4 + c) for c in range(3))
                + record(3, 1, 0) + record(3, 1, 7)
                + b"".join(advance(1) + b"".join(record(2, 0x10 + c) for c in range(3)) for _ in range(20))
                + advance(65535) + record(4) + record(1, 0x00, 0x20) for mode in range(6)), 0),
        "requests": (requests(5, 10000), 0),
        "slave": (slave(6, 14400), 0),
        "block": (
            record(1, 0x2A, 0x84) + record(1, 0x23, 0x10) + record(1, 0x2F, 0x0E) + record(3, 2, 1)
            + b"".join(record(6, 0, i & 255) for i in range(4100)), 4000),
        "outside": (outside(1000), 1000),
        "words": (words(1000), 1000),
        "words-odd": (words(1001), 1001),
    }
    for name, (tape, memory) in tapes.items():
        with open(os.path.join(folder, name + ".tape"), "wb") as f:
            f.write(tape)
        with open(os.path.join(folder, name + ".memory"), "wb") as f:
            f.write(r.randbytes(memory))


main(sys.argv[1])
