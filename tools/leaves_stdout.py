#!/usr/bin/env python3
"""What crates/leaves must print, worked out from the requirements and the RFCs without the code.

    tools/leaves_stdout.py > crates/leaves/stdout

Prefix octets by RFC 5340 A.4.1, newness by RFC 2328 13.1, numbers by Python's own big-endian
conversion, and strips by the table of entry kinds.
"""
import struct

# kind: name, format of the value, or of the count
KINDS = {1: ("open", "I"), 2: ("close", None), 3: ("u8", "B"), 4: ("u16", "H"),
         5: ("u32", "I"), 6: ("ip4", "I"), 7: ("ip6", "16s"), 8: ("bytes", None),
         9: ("never", None), 10: ("u64", "Q")}
BODY = {1: 13, 2: 0, 3: 10, 4: 11, 5: 13, 6: 13, 7: 25, 8: 9, 9: 9, 10: 17}


def octets(length):
    return None if length > 128 else 4 * -(-length // 32)


def prefixes():
    for length in range(256):
        n = octets(length)
        print("octets", length, "none" if n is None else n)
    zeros, first, middle, last = (bit.to_bytes(16, "big") for bit in (0, 1 << 127, 1 << 63, 1))
    for l, a, m, b in [(0, first, 0, zeros), (1, first, 1, zeros), (64, middle, 64, zeros),
                       (65, middle, 65, zeros), (127, zeros, 127, last), (128, zeros, 128, last),
                       (128, last, 128, last), (64, zeros, 63, zeros),
                       (129, zeros, 129, zeros), (128, zeros, 129, zeros),
                       (129, zeros, 128, zeros), (255, zeros, 0, zeros)]:
        if l > 128 or m > 128:
            answer = "refused 10"
        else:
            answer = "same" if (l, bits(a)[:l]) == (m, bits(b)[:m]) else "different"
        print("compare", l, m, answer)


def bits(address):
    return "".join(f"{byte:08b}" for byte in address)


def signed(n):
    return n - 2 ** 32 if n >= 2 ** 31 else n


def newer(x, y):
    (s, c, a), (t, d, b) = x, y
    if a > 3600 or b > 3600:
        return "refused 11"
    if signed(s) != signed(t):
        return "first" if signed(s) > signed(t) else "second"
    if c != d:
        return "first" if c > d else "second"
    if (a == 3600) != (b == 3600):
        return "first" if a == 3600 else "second"
    if abs(a - b) > 900:
        return "first" if a < b else "second"
    return "same"


def newness():
    for case in [(2147483649, 0, 0, 2147483650, 0, 0), (2147483650, 0, 0, 2147483649, 0, 0),
                 (2147483647, 0, 0, 2147483648, 0, 0), (2147483648, 0, 0, 2147483647, 0, 0),
                 (4294967295, 0, 0, 0, 0, 0), (0, 0, 0, 4294967295, 0, 0),
                 (0, 0, 0, 1, 65535, 3600), (2147483648, 0, 0, 4294967295, 0, 0),
                 (7, 1, 0, 7, 2, 0), (7, 2, 0, 7, 1, 3600), (7, 32767, 0, 7, 32768, 0),
                 (7, 65535, 0, 7, 0, 0),
                 (7, 9, 3600, 7, 9, 3600), (7, 9, 3600, 7, 9, 3599), (7, 9, 3599, 7, 9, 3600),
                 (7, 9, 3600, 7, 9, 0), (7, 9, 0, 7, 9, 900), (7, 9, 0, 7, 9, 901),
                 (7, 9, 900, 7, 9, 0), (7, 9, 901, 7, 9, 0), (7, 9, 2698, 7, 9, 3599),
                 (7, 9, 2699, 7, 9, 3599), (7, 9, 5, 7, 9, 5),
                 (7, 9, 3601, 7, 9, 0), (7, 9, 0, 7, 9, 3601), (7, 9, 65535, 8, 9, 65535)]:
        print("newness", *case, newer(case[:3], case[3:]))


def number(b, p, n):
    return int.from_bytes(b[p:p + n], "big")


def readers():
    s = bytes.fromhex("0180ff007ffe10200a")
    for name, n, places in [("u16", 2, (0, 7)), ("u24", 3, (0, 6)), ("u32", 4, (0, 5)),
                            ("u64", 8, (0, 1)), ("ip4", 4, (2, 5))]:
        print(name, *(number(s, p, n) for p in places))
    h = bytes.fromhex("0e10220a01000005c0a80001800000021234" + "0018")
    for kind in (number(h, 3, 1), number(h, 2, 2)):
        print("header", number(h, 0, 2), kind, number(h, 4, 4), number(h, 8, 4),
              number(h, 12, 4), number(h, 16, 2), number(h, 18, 2))


def step(s, p):
    """What is printed for the step at a place, and the next place if there is an entry."""
    if p > len(s):
        return "refused 6", None
    if p == len(s):
        return "end", None
    kind = s[p]
    if kind not in BODY:
        return "refused 7", None
    q = p + 1 + BODY[kind]
    if q > len(s):
        return "refused 8", None
    name, value = KINDS[kind]
    words = [name]
    if kind != 2:
        words += [str(x) for x in struct.unpack(">BII", s[p + 1:p + 10])]
    if value:
        (v,) = struct.unpack(">" + value, s[p + 10:q])
        if kind == 6:
            words.append(".".join(str(x) for x in s[p + 10:q]))
        else:
            words.append(v.hex() if isinstance(v, bytes) else str(v))
    return " ".join(words) + f"\nnext {q}", q


def print_strip(s):
    p = 0
    while p is not None:
        text, p = step(s, p)
        print(text)


def entry(kind, i=0, start=0, end=0, v=None):
    if kind == 2:
        return b"\x02"
    value = KINDS[kind][1]
    return struct.pack(">BBII", kind, i, start, end) + (struct.pack(">" + value, v) if value else b"")


def kinds():
    print("kinds")
    top = 2 ** 32 - 1
    v6 = bytes.fromhex("20010db800000000" + "0000000000000001")
    assert int.from_bytes(v6[:8], "big") == 2306139568115548160
    print_strip(entry(1, 255, top, top, top) + entry(3, 1, 0, 1, 255) + entry(4, 2, 1, 3, 65535)
                + entry(5, 3, 3, 7, top) + entry(9, 9, 7, 10) + entry(6, 4, 7, 11, 0xC0A80101) + entry(7, 5, 11, 27, v6)
                + entry(8, 6, 27, 65562) + entry(10, 7, 34, 42, 2 ** 64 - 1) + entry(2))


def leaves():
    print("leaves")
    b = bytes.fromhex("fedcba98765432100123456789abcdef85")
    o = 1000

    def field(kind, i, p, n, v):
        return entry(kind, i, o + p, o + p + n, v)

    print_strip(field(3, 10, 0, 1, b[0]) + field(3, 11, 16, 1, b[16] >> 7)
                + field(3, 12, 16, 1, b[16] & 127) + field(4, 13, 15, 2, number(b, 15, 2))
                + field(5, 14, 14, 3, number(b, 14, 3)) + field(5, 15, 1, 3, number(b, 1, 3))
                + field(5, 16, 2, 2, number(b, 2, 2)) + field(5, 17, 13, 4, number(b, 13, 4))
                + field(10, 22, 9, 8, number(b, 9, 8))
                + field(6, 18, 4, 4, number(b, 4, 4)) + field(7, 19, 1, 16, b[1:17])
                + field(7, 20, 8, 4, b[8:12] + bytes(12)) + field(8, 21, 5, 12, None))


def metrics():
    print("metrics")
    b = bytes.fromhex("00fffffffeffff00")
    s = b""
    for p in range(1, 6):
        v = number(b, p, 3)
        place = 1000 + p
        s += entry(9, 15, place, place + 3) if v == 2 ** 24 - 1 else entry(5, 15, place, place + 3, v)
    print_strip(s.ljust(5 * (1 + BODY[5]), b"\0"))


def steps():
    print("steps")
    for s, p in [(b"", 0), (b"", 1), (b"\x02", 0), (b"\x02", 1), (b"\x02", 2), (b"\x00", 0),
                 (b"\x0b", 0), (b"\xff", 0), (b"\x01" + b"." * 12, 0),
                 (b"\x03" + b"." * 9, 0),
                 (b"\x04" + b"." * 10, 0), (b"\x05" + b"." * 12, 0), (b"\x06" + b"." * 12, 0),
                 (b"\x07" + b"." * 24, 0), (b"\x08" + b"." * 8, 0),
                 (b"\x09" + b"." * 8, 0), (b"\x0a" + b"." * 16, 0),
                 (bytes.fromhex("08010000000200000003"), 0)]:
        print(step(s, p)[0])


prefixes()
newness()
readers()
kinds()
leaves()
metrics()
steps()
