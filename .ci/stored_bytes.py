"""The bytes of CURRENT and of the frames of a store, by docs/store-journal.md, and the files of a folder."""
import os
import shutil
import struct
from typing import NamedTuple

from stored_lab import see

VERSION = 3
PART, END, RECORD, MARK = range(4)
# the bytes of a frame before its body
FRONT = 68
FILES = ("tree.a", "tree.b")


def siphash(content, rounds=(1, 3)):
    """SipHash with the key 0, as Rust's DefaultHasher has it: 1 round a word, and 3 at the end."""
    mask = (1 << 64) - 1
    v = [0x736F6D6570736575, 0x646F72616E646F6D, 0x6C7967656E657261, 0x7465646279746573]

    def turn(x, n):
        return ((x << n) | (x >> (64 - n))) & mask

    def go(count):
        for _ in range(count):
            v[0] = (v[0] + v[1]) & mask
            v[1] = turn(v[1], 13) ^ v[0]
            v[0] = turn(v[0], 32)
            v[2] = (v[2] + v[3]) & mask
            v[3] = turn(v[3], 16) ^ v[2]
            v[0] = (v[0] + v[3]) & mask
            v[3] = turn(v[3], 21) ^ v[0]
            v[2] = (v[2] + v[1]) & mask
            v[1] = turn(v[1], 17) ^ v[2]
            v[2] = turn(v[2], 32)

    whole = content + bytes(-(len(content) + 1) % 8) + bytes([len(content) % 256])
    for (word,) in struct.iter_unpack("<Q", whole):
        v[3] ^= word
        go(rounds[0])
        v[0] ^= word
    v[2] ^= 0xFF
    go(rounds[1])
    return v[0] ^ v[1] ^ v[2] ^ v[3]


def content_of_file(path):
    with open(path, "rb") as it:
        return it.read()


class Current(NamedTuple):
    """What CURRENT says."""

    version: int
    high: int
    low: int
    generation: int
    begun: int
    slot: int
    machine: int

    @staticmethod
    def of(folder):
        content = content_of_file(f"{folder}/CURRENT")
        numbers = struct.unpack(">8Q", content)
        it = Current(*numbers[:7])
        see("CURRENT by its page", it.content(), content)
        return it

    def digest(self, numbers, rest=b""):
        """The digest of these numbers, and of bytes, under the identity."""
        return siphash(struct.pack(f"<{2 + len(numbers)}Q", self.high, self.low, *numbers) + rest)

    def content(self):
        told = (self.version, self.generation, self.begun, self.slot, self.machine)
        return struct.pack(">8Q", *self, self.digest(told))

    def name(self):
        """The file that counts."""
        return FILES[self.slot]

    def frame(self, last, kind, body, /, **others):
        """A frame that comes after a frame, or None. Some numbers of its head may be others than those that fit."""
        head = {
            "version": VERSION,
            "generation": self.generation,
            "number": last.number + 1 if last else 0,
            "before": last.digest if last else 0,
            "kind": kind,
            "length": len(body),
            "body": self.digest((), body),
            **others,
        }
        digest = self.digest(tuple(head.values()))
        return struct.pack(">8QI", *head.values(), digest, len(body)) + body + bytes(-len(body) % 4)


class Frame(NamedTuple):
    """A frame, as its head says it, and where it is."""

    at: int
    end: int
    generation: int
    number: int
    kind: int
    digest: int
    body: bytes


def frames_of(content):
    """The frames at the front of a file, by the lengths that they say. No digest is made."""
    found, at = [], 0
    while at + FRONT <= len(content):
        version, generation, number, before, kind, length, _, digest = struct.unpack_from(">8Q", content, at)
        end = at + FRONT + length + -length % 4
        fits = (generation, before) == (found[-1].generation, found[-1].digest) if found else number == 0
        if version != VERSION or number != len(found) or not fits or end > len(content):
            break
        found.append(Frame(at, end, generation, number, kind, digest, content[at + FRONT : at + FRONT + length]))
        at = end
    return found


def counting(folder):
    """The bytes of the file that counts."""
    return content_of_file(f"{folder}/{Current.of(folder).name()}")


def frames_in(folder):
    """The frames of the file that counts."""
    return frames_of(counting(folder))


def records_in(folder):
    """How many records stand in the file that counts."""
    return sum(it.kind == RECORD for it in frames_in(folder))


def files_of(folder):
    return {name: content_of_file(f"{folder}/{name}") for name in sorted(os.listdir(folder))}


def lay(folder, files):
    """Makes a folder of these files."""
    shutil.rmtree(folder, ignore_errors=True)
    os.mkdir(folder)
    for name, content in files.items():
        with open(f"{folder}/{name}", "wb") as it:
            it.write(content)
    return folder
