"""The bytes of calls: XDR (RFC 4506), records and calls (RFC 5531), operations of NFS version 4.1 (RFC 8881, section 18)."""
import struct


def u32(*words):
    return struct.pack(f">{len(words)}I", *words)


def u64(*words):
    return struct.pack(f">{len(words)}Q", *words)


def opaque(data):
    return u32(len(data)) + data + bytes(-len(data) % 4)


ANONYMOUS = bytes(16)
NO_ATTRIBUTES = u32(0, 0)
ROOT = u32(24)


def putfh(number):
    return u32(22) + opaque(u64(0, number))


def lookup(name):
    return u32(15) + opaque(name)


def access(mask):
    return u32(3, mask)


def create(name):
    """A directory."""
    return u32(6, 2) + opaque(name) + NO_ATTRIBUTES


def remove(name):
    return u32(28) + opaque(name)


def open_new(name):
    """OPEN for writing, UNCHECKED, by a name."""
    return u32(18, 0, 2, 0) + u64(0) + opaque(b"o") + u32(1, 0) + NO_ATTRIBUTES + u32(0) + opaque(name)


def close(number):
    return u32(4, 0) + u32(1) + u32(0) + u64(number)


def read(offset, count):
    return u32(25) + ANONYMOUS + u64(offset) + u32(count)


def write(offset, data):
    return u32(38) + ANONYMOUS + u64(offset) + u32(0) + opaque(data)


def readdir(cookie, verifier, most, words):
    return u32(26) + u64(cookie) + verifier + u32(most, most, len(words), *words)


def call(*operations, xid=2, user=1002, group=100):
    """One record with one COMPOUND."""
    args = u32(0, 1, len(operations)) + b"".join(operations)
    body = u32(xid, 0, 2, 100003, 4, 1, 1) + opaque(u32(0) + opaque(b"") + u32(user, group, 0)) + u32(0, 0) + args
    return u32(0x80000000 | len(body)) + body


# ---- operations that `bare` has no use for

def number(code, *words):
    """An operation whose arguments are words."""
    return u32(code, *words)


def attributes(numbers, values=b""):
    """A set of attributes, with the bytes of their values."""
    words = [0, 0]
    for it in numbers:
        words[it // 32] |= 1 << (it % 32)
    return u32(2, *words) + opaque(values)


def exchange_id(owner):
    return u32(42) + bytes(8) + opaque(owner) + u32(0, 0, 0)


def channel(slots=8):
    return u32(0, 65536, 65536, 65536, 16, slots, 0)


def create_session(client, sequence):
    return u32(43) + u64(client) + u32(sequence, 0) + channel() + channel() + u32(0x40000000, 1, 0)


def sequence(session, at, slot=0):
    return u32(53) + session + u32(at, slot, 7, 0)
