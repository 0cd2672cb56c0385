#!/usr/bin/env python3
"""Random scripts of commands to nfslab and to the plain program of `model.py`, side by side.

    scripts.py NFSLAB FIRST SEEDS LINES [BOOK]

Each seed from FIRST on makes a script of that many lines, for four users, over few names and random access control lists. `Plain` runs each command by the operations that the
profile gives for it, one call for each, on the plain program. What nfslab prints must be the same: the answers, the trail and the status. A script whose output differs is
printed with the first line that differs, and the status is 1. nfslab has the limits of the standard profile alone, and so has the plain program here.
"""
import os
import random
import subprocess
import sys
from collections import Counter

sys.path.insert(0, os.path.dirname(os.path.abspath(__file__)))
import model
from calls import book_of
from model import U, M, Rd, o, u

NAMES = ["a", "b", "c", "d", "e"]
USERS = [(0, 0), (1001, 100), (1002, 100), (1001, 7), (5, 7)]
WHOS = ["OWNER@", "GROUP@", "EVERYONE@", "1001", "1002", "0", "100", "7"]
MASKS = [0x1F01FF & model.DEFINED, 1, 2, 4, 6, 0x20, 0x27, 0x40, 0x66, 0x80, 0x10000, 0x20000, 0x40000, 0x1200A9, 0x1E0187, 0]
LISTED = {1, 4, 11, 33, 36, 37}
LISTS = {"acl": 12, "dacl": 58, "sacl": 59}
KINDS = {1: "-", 2: "d", 5: "l"}
TYPES = "ADUL"
STATUS = {number: name for name, number in model.ST.items()}
ANON = u(0) + bytes(12)
OPERATIONS = dict(
    ACCESS=3, CLOSE=4, CREATE=6, GETATTR=9, GETFH=10, LINK=11, LOOKUP=15, OPEN=18, PUTFH=22, PUTROOTFH=24, READ=25, READDIR=26, REMOVE=28, RENAME=29, SAVEFH=32,
    SETATTR=34, WRITE=38, EXCHANGE_ID=42, CREATE_SESSION=43, DESTROY_SESSION=44, SEQUENCE=53, DESTROY_CLIENTID=57,
)
CHANNEL = u(0) + u(65536) + u(65536) + u(65536) + u(16) + u(8) + u(0)


class Failed(Exception):
    """A fault that is no refusal, by its number: 1 a path, 7 an entry or a mode."""


class Refused(Exception):
    """A refusal by the server: the operation and the status."""


def path_of(text):
    """The names of a path."""
    if text == "/":
        return []
    names = text.split("/")
    if names[0] or not all(names[1:]):
        raise Failed(1)
    return [it.encode() for it in names[1:]]


def place_of(text):
    """The names of a path's directory, and its last name."""
    names = path_of(text)
    if not names:
        raise Failed(1)
    return names[:-1], names[-1]


def mode_of(text):
    if not 1 <= len(text) <= 4 or any(it not in "01234567" for it in text):
        raise Failed(7)
    return int(text, 8)


def entry_of(text):
    """The bytes of an entry TYPE:FLAGS:MASK:WHO."""
    parts = text.split(":", 3)
    hexes = all(it in "0123456789abcdefABCDEF" for part in parts[1:3] for it in part)
    if len(parts) != 4 or parts[0] not in list(TYPES) or len(parts[1]) != 2 or len(parts[2]) != 8 or not hexes:
        raise Failed(7)
    return u(TYPES.index(parts[0])) + u(int(parts[1], 16)) + u(int(parts[2], 16)) + o(parts[3].encode())


def text_of_list(r):
    """The lines of a list."""
    lines = []
    for _ in range(r.u()):
        kind, flags, mask, who = r.u(), r.u(), r.u(), r.o()
        lines.append(f"{TYPES[kind]}:{flags:02x}:{mask:08x}:".encode() + who)
    return lines


class Plain:
    """A client of the plain program, with a session for one line of a script."""

    def __init__(self, server, uid, gid, moment):
        self.server, self.uid, self.gid, self.moment, self.number = server, uid, gid, moment, 0
        self.handle, self.saved = None, None
        r = self.call([("EXCHANGE_ID", bytes(8) + o(b"judge-%d" % moment) + u(0) + u(0) + u(0))], 0)
        self.client = r.U()
        r = self.call([("CREATE_SESSION", U(self.client) + u(r.u()) + u(0) + CHANNEL + CHANNEL + u(0) + u(1) + u(0))], 0)
        self.session = r.take(16)

    def end(self):
        self.call([("DESTROY_SESSION", self.session)], 0)
        self.call([("DESTROY_CLIENTID", U(self.client))], 0)

    def call(self, operations, leading):
        """Makes a call, and gives the result of the operation after so many, whose results have this many bytes; or raises its refusal."""
        args = o(b"") + u(1) + u(len(operations)) + b"".join(u(OPERATIONS[name]) + it for name, it in operations)
        credential = u(0) + o(b"") + u(self.uid) + u(self.gid) + u(0)
        record = u(1) + u(0) + u(2) + u(100003) + u(4) + u(1) + u(1) + o(credential) + u(0) + o(b"") + args
        r = Rd(self.server.record(record, (self.moment, 0))[24:])
        status, _, count = r.u(), r.o(), r.u()
        if status:
            raise Refused(operations[count - 1][0], STATUS[status])
        for name, size in operations[:leading]:
            r.take(8 + {"SEQUENCE": 36, "PUTFH": 0, "SAVEFH": 0}[name])
        r.take(8)
        return r

    def do(self, name, args=b""):
        """Does an operation on the current object, in a call of its own."""
        self.number += 1
        before = [("SEQUENCE", self.session + u(self.number) + u(0) + u(0) + u(0))]
        if self.saved is not None:
            before += [("PUTFH", o(self.saved)), ("SAVEFH", b"")]
        if self.handle is not None:
            before.append(("PUTFH", o(self.handle)))
        return self.call(before + [(name, args)], len(before))

    def walk(self, names):
        """Goes to the object along these names."""
        self.number += 1
        self.call([("SEQUENCE", self.session + u(self.number) + u(0) + u(0) + u(0)), ("PUTROOTFH", b"")], 1)
        self.handle, self.saved = bytes(8) + U(1), None
        for name in names:
            self.number += 1
            lookup = [("SEQUENCE", self.session + u(self.number) + u(0) + u(0) + u(0)), ("PUTFH", o(self.handle)), ("LOOKUP", o(name)), ("GETFH", b"")]
            r = self.call(lookup, 2)
            r.take(8)
            self.handle = r.o()

    def ls(self, path):
        self.walk(path_of(path))
        cookie, lines, is_more = 0, [], True
        while is_more:
            r = self.do("READDIR", U(cookie) + bytes(8) + u(4096) + u(16384) + M(LISTED))
            r.take(8)
            while r.b_():
                cookie, name, (has, values) = r.U(), r.o(), r.F()
                lines.append(self.listed(name, has, Rd(values)))
            is_more = not r.b_()
        return b"".join(it + b"\n" for it in lines)

    @staticmethod
    def listed(name, has, values):
        """The line of an entry, of whose values some are refused."""
        said = {}
        for number in sorted(has):
            said[number] = values.U() if number == 4 else values.o() if number in (36, 37) else values.u()
        mode = b"%04o" % said[33] if 33 in said else b"?"
        size = b"%d" % said[4] if 4 in said else b"?"
        return b" ".join([KINDS[said[1]].encode(), mode, said.get(36, b"?"), said.get(37, b"?"), size, name])

    def cat(self, path):
        self.walk(path_of(path))
        data, is_end = b"", False
        while not is_end:
            r = self.do("READ", ANON + U(len(data)) + u(32768))
            is_end = r.b_()
            data += r.o()
        return data + b"\n"

    def put(self, path, text):
        """OPEN that empties the file, a WRITE for each 32,768 bytes, and CLOSE, also after a refused WRITE."""
        (directory, name), text = place_of(path), text.encode()
        self.walk(directory)
        self.number += 1
        opening = u(0) + u(2) + u(0) + U(self.client) + o(b"judge") + u(1) + u(0) + M({4}) + o(U(0)) + u(0) + o(name)
        before = [("SEQUENCE", self.session + u(self.number) + u(0) + u(0) + u(0)), ("PUTFH", o(self.handle))]
        r = self.call(before + [("OPEN", opening), ("GETFH", b"")], 2)
        stateid = r.take(16)
        r.take(20 + 4)
        r.M()
        r.take(4 + 8)
        self.handle = r.o()
        fault = None
        try:
            done = 0
            while done < len(text):
                done += self.do("WRITE", stateid + U(done) + u(2) + o(text[done : done + 32768])).u()
        except Refused as refusal:
            fault = refusal
        self.do("CLOSE", u(0) + stateid)
        if fault:
            raise fault
        return b"ok\n"

    def mkdir(self, path):
        directory, name = place_of(path)
        self.walk(directory)
        self.do("CREATE", u(2) + o(name) + M(set()) + o(b""))
        return b"ok\n"

    def ln(self, old, new):
        first, (directory, name) = path_of(old), place_of(new)
        self.walk(first)
        saved = self.handle
        self.walk(directory)
        self.saved = saved
        self.do("LINK", o(name))
        return b"ok\n"

    def mv(self, old, new):
        (first, name), (directory, other) = place_of(old), place_of(new)
        self.walk(first)
        saved = self.handle
        self.walk(directory)
        self.saved = saved
        self.do("RENAME", o(name) + o(other))
        return b"ok\n"

    def rm(self, path):
        directory, name = place_of(path)
        self.walk(directory)
        self.do("REMOVE", o(name))
        return b"ok\n"

    def chmod(self, mode, path):
        mode, names = mode_of(mode), path_of(path)
        self.walk(names)
        self.do("SETATTR", ANON + M({33}) + o(u(mode)))
        return b"ok\n"

    def get(self, part, path):
        self.walk(path_of(path))
        _, values = self.do("GETATTR", M({LISTS[part]})).F()
        r = Rd(values)
        if part != "acl":
            r.u()
        return b"".join(it + b"\n" for it in text_of_list(r))

    def set(self, part, path, entries):
        names, made = path_of(path), [entry_of(it) for it in entries]
        self.walk(names)
        flag = b"" if part == "acl" else u(0)
        self.do("SETATTR", ANON + M({LISTS[part]}) + o(flag + u(len(made)) + b"".join(made)))
        return b"ok\n"

    def access(self, path):
        self.walk(path_of(path))
        r = self.do("ACCESS", u(0x3F))
        return b"access %08x %08x\n" % (r.u(), r.u())

    def run(self, words):
        name, *rest = words
        if name[:3] in ("get", "set") and name[3:] in LISTS:
            return self.get(name[3:], *rest) if name[:3] == "get" else self.set(name[3:], rest[0], rest[1:])
        return getattr(self, name)(*rest)


def answer(server, at, line):
    """What a line of a script is answered, and whether the script ends with status 1 for it."""
    _, uid, gid, *words = line.split(" ")
    client = Plain(server, int(uid), int(gid), at)
    try:
        said, is_bad = client.run(words), False
    except Failed as fault:
        said, is_bad = b"failed %d\n" % fault.args[0], True
    except Refused as refusal:
        said, is_bad = "refused {} {}\n".format(*refusal.args).encode(), False
    client.end()
    return said, is_bad


class Script:
    """Makes the lines of a script, mostly of paths that the plain program has by then."""

    def __init__(self, r, server):
        self.r, self.server = r, server

    def paths(self, number=1, front="", depth=3):
        """The paths below a directory, and of its own."""
        found = [front]
        for name, (child, _) in self.server.names[number].items():
            path = f"{front}/{name.decode()}"
            found += self.paths(child, path, depth - 1) if depth and child in self.server.names else [path]
        return found

    def path(self):
        r = self.r
        if r.random() < 0.03:
            return r.choice(["/", "//a", "/a/", "a", "/a//b"])
        front = r.choice(self.paths())
        return f"{front}/{r.choice(NAMES)}" if not front or r.random() < 0.3 else front

    def entry(self):
        r = self.r
        if r.random() < 0.01:
            return r.choice(["X:00:00000001:OWNER@", "A:0:00000001:OWNER@", "A:00:00000001", "A:00:0000000g:OWNER@"])
        who = r.choice(WHOS)
        flags = r.choice([0, 0, 0, 0, 1, 2, 3, 3, 0x0B, 8, 4, 7, 0x10, 0x20, 0x30]) | (0x40 if who in ("100", "7") else 0)
        return f"{r.choice('AAAAAADDDUL')}:{flags:02x}:{r.choice(MASKS):08x}:{who}"

    def command(self):
        r = self.r
        name = r.choices(["put", "cat", "ls", "mkdir", "ln", "mv", "rm", "chmod", "getacl", "setacl", "access", "getdacl", "getsacl", "setdacl", "setsacl"],
                         [14, 10, 8, 9, 5, 9, 8, 7, 4, 12, 4, 1, 1, 2, 2])[0]
        if name == "put":
            return [name, self.path(), "x" * r.choice([1, 2, 3, 5, 40, 40000])]
        if name in ("ln", "mv"):
            return [name, self.path(), self.path()]
        if name == "chmod":
            return [name, r.choice(["0640", "0600", "755", "777", "0", "7777", "04755", "8"]), self.path()]
        if name.startswith("set"):
            return [name, self.path(), *(self.entry() for _ in range(r.choice([1, 1, 2, 3, 4]))), *r.choice([[], ["A:03:001e01ff:EVERYONE@"], ["A:00:001e01ff:OWNER@"]])]
        return [name, self.path() if name not in ("ls", "access") or r.random() < 0.8 else "/"]

    def line(self):
        uid, gid = self.r.choice(USERS)
        return " ".join(["as", str(uid), str(gid), *self.command()])


def judged(nfslab, seed, lines, book, counts):
    """Runs a script on both, counts its answers, and gives whether they agree."""
    server = model.Server(book_of(book) if book else model.Book(), False)
    made = Script(random.Random(seed), server)
    script, answers = [], []
    for at in range(1, lines + 1):
        script.append(made.line() if at > 1 else "as 0 0 setacl / A:03:001e01ff:OWNER@ A:03:001200a9:EVERYONE@ A:02:00000006:1001")
        answers.append(answer(server, at, script[-1]))
    counts.update(said.decode().strip() if said.startswith((b"refused", b"failed")) else line.split(" ")[3] for line, (said, _) in zip(script, answers))
    counts["lines of the trail"] += server.total
    wanted = b"".join(said for said, _ in answers) + f"trail {server.total}\n".encode() + b"".join(f"{it}\n".encode() for it in server.trail[-4096:])
    status = 1 if any(is_bad for _, is_bad in answers) else 0
    options = ["--book", book] if book else []
    ran = subprocess.run([nfslab, *options], input="".join(f"{it}\n" for it in script).encode(), capture_output=True)
    if (ran.stdout, ran.returncode) == (wanted, status):
        return True
    given, want = ran.stdout.split(b"\n"), wanted.split(b"\n")
    at = next((at for at, pair in enumerate(zip(given, want)) if pair[0] != pair[1]), min(len(given), len(want)))
    print(f"seed {seed}: line {at + 1} of the output, status {ran.returncode} and not {status}")
    print(f"  nfslab: {given[at : at + 1]}\n  model:  {want[at : at + 1]}")
    print("\n".join(f"  {number:3} {line[:120]}  -> {said[:60]}" for number, (line, (said, _)) in enumerate(zip(script, answers), 1)))
    return False


def main(words):
    nfslab, first, seeds, lines = words[0], *map(int, words[1:4])
    book = words[4] if words[4:] else None
    counts = Counter()
    good = [judged(nfslab, seed, lines, book, counts) for seed in range(first, first + seeds)]
    print(", ".join(f"{said} {count}" for said, count in sorted(counts.items())))
    print(f"{sum(good)} of {len(good)} scripts of {lines} lines are as the plain program has them")
    return 0 if all(good) else 1


if __name__ == "__main__":
    sys.exit(main(sys.argv[1:]))
