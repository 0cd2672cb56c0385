"""The files of a store: CURRENT, and the frames of the file that it names.

Written from docs/store-folder.md and docs/store-journal.md alone. It shares nothing with the server.
"""
import dataclasses
import os
import stat
import struct

VERSION = 3
PART, END, RECORD, MARK = range(4)  # of these a reader asks which is an end, and which is a mark
HEAD = 64
MOST_BODY = 67108864
MASK = (1 << 64) - 1
NAMES = ('LOCK', 'CURRENT', 'tree.a', 'tree.b')


class Refused(Exception):
    """Why a folder isn't a whole store: a sentence that names the file and the place."""


def mixed(a, b, c, d):
    """One round of SipHash."""
    a = a + b & MASK
    b = (b << 13 | b >> 51) & MASK ^ a
    a = (a << 32 | a >> 32) & MASK
    c = c + d & MASK
    d = (d << 16 | d >> 48) & MASK ^ c
    a = a + d & MASK
    d = (d << 21 | d >> 43) & MASK ^ a
    c = c + b & MASK
    b = (b << 17 | b >> 47) & MASK ^ c
    return a, b, (c << 32 | c >> 32) & MASK, d


def sip13(data):
    """SipHash-1-3 of these bytes, under the key 0."""
    a, b, c, d = 0x736f6d6570736575, 0x646f72616e646f6d, 0x6c7967656e657261, 0x7465646279746573
    whole = len(data) & ~7
    last = int.from_bytes(data[whole:], 'little') | (len(data) & 255) << 56
    for word in (*struct.unpack(f'<{whole // 8}Q', data[:whole]), last):
        a, b, c, d = mixed(a, b, c, d ^ word)
        a ^= word
    c ^= 0xff
    for _ in range(3):
        a, b, c, d = mixed(a, b, c, d)
    return a ^ b ^ c ^ d


@dataclasses.dataclass(frozen=True)
class Current:
    """What CURRENT says."""
    high: int
    low: int
    generation: int
    begun: int
    slot: int
    machine: int

    def digest(self, data):
        """A digest of this store."""
        return sip13(struct.pack('<2Q', self.high, self.low) + data)

    def file(self):
        return 'tree.b' if self.slot else 'tree.a'


def read_current(data):
    if len(data) != 64:
        raise Refused(f'CURRENT: it has {len(data)} bytes, and not 64')
    version, high, low, generation, begun, slot, machine, digest = struct.unpack('>8Q', data)
    it = Current(high, low, generation, begun, slot, machine)
    if it.digest(struct.pack('<5Q', version, generation, begun, slot, machine)) != digest:
        raise Refused('CURRENT: at byte 56: its digest is another one')
    if version != VERSION:
        raise Refused(f'CURRENT: at byte 0: its version is {version}, which is not known')
    if slot > 1:
        raise Refused(f'CURRENT: at byte 40: there is no file {slot}')
    return it


@dataclasses.dataclass(frozen=True)
class Frame:
    at: int
    kind: int
    digest: int
    body: bytes
    end: int


def frame_at(current, data, at, number, before):
    """The frame of this number, after the head of this digest, or None."""
    if at + HEAD + 4 > len(data):
        return None
    head = struct.unpack_from('>7Q', data, at)
    version, generation, its_number, its_before, kind, length, body_digest = head
    digest, size = struct.unpack_from('>QI', data, at + 56)
    if (version, generation, its_number, its_before) != (VERSION, current.generation, number, before):
        return None
    if current.digest(struct.pack('<7Q', *head)) != digest:
        return None
    first, last = at + HEAD + 4, at + HEAD + 4 + size
    end = last + -size % 4
    if size != length or size > MOST_BODY or end > len(data) or any(data[last:end]):
        return None
    body = bytes(data[first:last])
    if current.digest(body) != body_digest:
        return None
    return Frame(at, kind, digest, body, end)


def later_head(current, data, at, number):
    """Where a head of a later frame of this generation stands, or None."""
    begins = struct.pack('>2Q', VERSION, current.generation)
    here = data.find(begins, at)
    while here >= 0:
        if here % 4 == 0 and here + HEAD <= len(data):
            head = struct.unpack_from('>7Q', data, here)
            if head[2] > number and current.digest(struct.pack('<7Q', *head)) == struct.unpack_from('>Q', data, here + 56)[0]:
                return here
        here = data.find(begins, here + 1)
    return None


@dataclasses.dataclass(frozen=True)
class Log:
    """The frames of the file that counts: a checkpoint, and the records after it."""
    current: Current
    parts: list
    rest: list
    end: int
    torn: int

    def records(self):
        return [frame for frame in self.rest if frame.kind != MARK]


def frames_of(current, data):
    """The frames at the front of a file, and where they end."""
    frames, at, before = [], 0, 0
    while frame := frame_at(current, data, at, len(frames), before):
        frames.append(frame)
        at, before = frame.end, frame.digest
    return frames, at


def read_log(current, data):
    """What the file that counts has, of which these are the bytes."""
    name = current.file()
    frames, end = frames_of(current, data)
    ends = [place for place, frame in enumerate(frames) if frame.kind == END]
    if not ends:
        raise Refused(f'{name}: at byte {end}: {len(frames)} frames stand, and no end of a checkpoint is among them')
    parts, rest = frames[:ends[0]], frames[ends[0] + 1:]
    if data[end:end + 8] == bytes(8):
        return Log(current, parts, rest, end, 0)
    later = later_head(current, data, end, len(frames))
    if later is not None:
        raise Refused(f'{name}: at byte {end}: {len(frames)} frames stand, and a later one at byte {later}')
    return Log(current, parts, rest, end, len(data[end:].rstrip(b'\0')))


def file_of(folder, name):
    """The bytes of a file, or None where there is none."""
    path = os.path.join(folder, name)
    try:
        seen = os.lstat(path)
    except FileNotFoundError:
        return None
    if not stat.S_ISREG(seen.st_mode):
        raise Refused(f"{name}: it isn't a regular file")
    if seen.st_nlink != 1:
        raise Refused(f'{name}: the file has a second name')
    with open(path, 'rb') as it:
        return it.read()


def read_folder(folder):
    """The log of the store in a folder; None where the store is new, and CURRENT alone where no checkpoint was finished."""
    if not os.path.isdir(folder):
        raise Refused("it isn't a folder")
    if os.path.lexists(os.path.join(folder, 'tree.key')):
        raise Refused('tree.key: the store was written by an earlier server')
    lock, current, *trees = (file_of(folder, name) for name in NAMES)
    if lock is None:
        raise Refused('LOCK: it is missing')
    if current is None:
        for name, data in zip(NAMES[2:], trees):
            if data:
                raise Refused(f'CURRENT: it is missing, and {name} has {len(data)} bytes')
        return None
    for name, data in zip(NAMES[2:], trees):
        if data is None:
            raise Refused(f'{name}: it is missing')
    current = read_current(current)
    return read_log(current, trees[current.slot]) if current.generation else current
