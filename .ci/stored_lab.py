"""Servers over stores, a client that calls them, and pictures of what they serve, for the scenes of .ci/stored."""
import os
import random
import signal
import socket
import struct
import subprocess
import sys
import threading

PATIENCE = 60
NFS_OK, NOSPC, STALE, STALE_CLIENTID, BAD_STATEID, BADSESSION = 0, 28, 70, 10022, 10025, 10052
COMPLETE_ALREADY, SEQ_MISORDERED, SEQ_FALSE_RETRY = 10054, 10063, 10076
# CREATE_SESSION4_FLAG_PERSIST (RFC 8881, section 18.36), and EXCHGID4_FLAG_CONFIRMED_R (section 18.35)
PERSIST, CONFIRMED = 1, 0x8000_0000
# how far ahead of its last call a slot may go after a restart
MOST_AHEAD = 1 << 20
FILE, DIRECTORY, LINK = 1, 2, 5
# type, change, size, the number of names, the number, the mode, owner, group, both times, and the list (RFC 8881, section 5)
ATTRIBUTES = (1, 3, 4, 12, 20, 33, 35, 36, 37, 52, 53)
RANDOM = random.Random(41)


def see(what, given, wanted):
    if given != wanted:
        sys.exit(f"stored: {what}: {str(given)[:900]}\n  and not {str(wanted)[:900]}")


def words(*numbers):
    return struct.pack(f">{len(numbers)}I", *numbers)


def hyper(number):
    return struct.pack(">Q", number)


def opaque(content):
    return words(len(content)) + content + bytes(-len(content) % 4)


def bitmap(numbers):
    fields = [0] * (max(numbers, default=-1) // 32 + 1)
    for number in numbers:
        fields[number // 32] |= 1 << number % 32
    return words(len(fields), *fields)


class Results:
    """The results of a COMPOUND, read from the front."""

    def __init__(self, content):
        self.left = content
        self.status, _, self.count = self.word(), self.opaque(), self.word()

    def take(self, count):
        taken, self.left = self.left[:count], self.left[count:]
        return taken

    def word(self):
        return struct.unpack(">I", self.take(4))[0]

    def hyper(self):
        return struct.unpack(">Q", self.take(8))[0]

    def opaque(self):
        count = self.word()
        taken = self.take(count)
        self.take(-count % 4)
        return taken

    def head(self, number):
        """Goes past the number of an operation and its status."""
        see("an operation", (self.word(), self.word()), (number, NFS_OK))


class Gone(Exception):
    """The server has ended the stream."""


def free_port():
    with socket.socket() as it:
        it.bind(("127.0.0.1", 0))
        return it.getsockname()[1]


class Server:
    """A server over a store, or over none, which listens."""

    programs = {}
    begun = []

    def __init__(self, folder, first=None, options=(), under=()):
        said = self.begin(folder, first, options, under)
        if said:
            sys.exit(f"stored: the server over {folder} says {said!r}, and doesn't listen")

    @staticmethod
    def options_over(folder):
        """The options of a server over this folder."""
        return ["--concurrent", *(["--store", folder] if folder else [])]

    def begin(self, folder, first=None, options=(), under=()):
        """Starts a server. What it says instead of listening."""
        self.folder, self.port = folder, free_port()
        call = [*under, Server.programs["nfsd"], "--port", str(self.port), *self.options_over(folder), *options]
        self.ran = subprocess.Popen(call, stdout=subprocess.PIPE, stderr=subprocess.PIPE, text=True, preexec_fn=first)
        Server.begun.append(self.ran)
        if self.ran.stdout.readline() == f"listening on 127.0.0.1:{self.port}\n":
            return ""
        said = self.ran.stderr.read()
        see(f"the status of a server that says {said}", self.ran.wait(timeout=PATIENCE), 1)
        return said

    @classmethod
    def tried(cls, folder, options=(), under=()):
        """A server over a folder, or None; and what it says where it doesn't listen."""
        it = cls.__new__(cls)
        said = it.begin(folder, None, options, under)
        return (None, said) if said else (it, "")

    def kill(self, how=signal.SIGKILL):
        self.ran.send_signal(how)
        see("the status", self.ran.wait(timeout=PATIENCE), -how)
        see("what the server said", self.ran.stderr.read(), "")

    def ends(self, said):
        see("the status", self.ran.wait(timeout=PATIENCE), 1)
        see("what the server said", self.ran.stderr.read(), said)


class HomeServer(Server):
    """A server over a home, which listens."""

    @staticmethod
    def options_over(folder):
        return ["--home", folder]


def refused(folder, *options, first=None):
    """What a server says that doesn't begin, and its status."""
    call = [Server.programs["nfsd"], "--port", str(free_port()), "--concurrent", "--connections", "0", "--store", folder, *options]
    ran = subprocess.run(call, capture_output=True, text=True, timeout=PATIENCE, preexec_fn=first, check=False)
    return ran.stderr, ran.returncode


def stop(folder, number, sentence):
    """What a server says that a store isn't gone on with, and its status."""
    return f"nfsd: store {number}\n{folder}{sentence}\n", 1


def nfstore(folder, *options):
    """What nfstore prints, what it says, and its status."""
    ran = subprocess.run([Server.programs["nfstore"], folder, *options], capture_output=True, timeout=PATIENCE, check=False)
    return ran.stdout, ran.stderr.decode(), ran.returncode


def summary(folder):
    """The names and values that nfstore prints."""
    said, told, status = nfstore(folder)
    see("nfstore", (told, status), ("", 0))
    return dict(line.split(" ") for line in said.decode().splitlines())


class Peer:
    """A client with a session of its own (RFC 8881, sections 18.35 and 18.36)."""

    def __init__(self, server, owner, uid=0, flags=0):
        self.begin(server, owner, uid)
        self.client, sequence, _ = self.exchange()
        self.create(sequence, flags)

    def begin(self, server, owner, uid=0):
        """Connects, before any call."""
        self.connect(server)
        self.uid, self.xid, self.number, self.owner = uid, 0, 0, owner.encode()
        self.verifier = RANDOM.getrandbits(64)

    def connect(self, server):
        self.stream = socket.create_connection(("127.0.0.1", server.port), timeout=PATIENCE)
        self.stream.setsockopt(socket.IPPROTO_TCP, socket.TCP_NODELAY, 1)

    def create(self, sequence, flags=0):
        """Makes its session."""
        got = self.ask(1, self.creation(sequence, flags))
        got.head(43)
        self.session, _, self.granted = got.take(16), got.word(), got.word()

    def exchange(self):
        """EXCHANGE_ID: the number of the client, that of its next CREATE_SESSION, and the flags."""
        got = self.ask(1, words(42) + hyper(self.verifier) + opaque(self.owner) + words(0, 0, 0))
        got.head(42)
        return got.hyper(), got.word(), got.word()

    def creation(self, sequence, flags):
        """CREATE_SESSION with this number."""
        channel = words(0, 65536, 65536, 65536, 16, 8, 0)
        last = words(flags) + channel + channel + words(0x4000_0000, 1, 0)
        return words(43) + hyper(self.client) + words(sequence) + last

    def sequence(self, number, slot=0):
        return words(53) + self.session + words(number, slot, 7, 0)

    def send(self, count, operations):
        """Sends a COMPOUND, with a number of its own."""
        self.xid += 1
        self.send_again(count, operations)

    def send_again(self, count, operations):
        """Sends a COMPOUND with the number of the last one."""
        call = words(self.xid, 0, 2, 100003, 4, 1, 1, 20, 0, 0, self.uid, 0, 0, 0, 0, 0, 1, count)
        call += operations
        try:
            self.stream.sendall(words(0x8000_0000 | len(call)) + call)
        except OSError as error:
            raise Gone from error

    def reply(self):
        """The next reply, as it is sent, without its mark."""
        try:
            length = struct.unpack(">I", self.some(4))[0] & 0x7FFF_FFFF
            return self.some(length)
        except OSError as error:
            raise Gone from error

    def ask(self, count, operations):
        """The results of a COMPOUND."""
        self.send(count, operations)
        return Results(self.reply()[24:])

    def some(self, count):
        got = b""
        while len(got) < count:
            more = self.stream.recv(count - len(got))
            if not more:
                raise Gone
            got += more
        return got

    def call(self, *operations):
        """The results of operations after a SEQUENCE, which has gone well."""
        self.number += 1
        got = self.ask(1 + len(operations), self.sequence(self.number) + b"".join(operations))
        got.head(53)
        got.take(32)
        see("the status bits of SEQUENCE", got.word(), 0)
        return got

    def good(self, *operations):
        got = self.call(*operations)
        see("the status of a call", got.status, NFS_OK)
        return got

    def making(self, folder, name, content):
        """The operations that make a file with these bytes. WRITE has a stateid that stands for none (RFC 8881, section 8.2.3)."""
        how = words(0, 3, 0) + hyper(self.client) + opaque(self.owner) + words(1, 0, 0, 0) + words(0) + opaque(name)
        return [*there(folder), words(18) + how, words(38, 0, 0, 0, 0) + hyper(0) + words(2) + opaque(content)]

    def make(self, folder, name, content):
        """Makes a file with these bytes, as one call."""
        return self.good(*self.making(folder, name, content))

    def open(self, name):
        """The stateid of an open of a file in the root."""
        how = words(0, 3, 0) + hyper(self.client) + opaque(self.owner) + words(0, 0) + opaque(name)
        got = self.good(ROOT, words(18) + how)
        got.head(24)
        got.head(18)
        return got.take(16)

    def status(self, number, *operations, slot=0):
        """The status of a COMPOUND with this number on a slot."""
        return self.ask(1 + len(operations), self.sequence(number, slot) + b"".join(operations)).status

    def go_on(self, server):
        """Connects again, to a server that was started again."""
        self.close()
        self.connect(server)

    def open_in(self, folder, name):
        """The stateid of an open of a file that is there."""
        got = self.good(*there(folder), opening(self, name, None))
        for number in (24, 15, 18):
            got.head(number)
        return got.take(16)

    def close(self):
        self.stream.close()


def read(stateid):
    return words(25) + stateid + hyper(0) + words(1000)


def write(stateid, content):
    """WRITE at the front of a file."""
    return words(38) + stateid + hyper(0) + words(2) + opaque(content)


def see_remembered(server, old, stateid):
    """After a restart a client's session goes on, and its opens read and write; a new client gets a new number."""
    old.go_on(server)
    verdict = old.exchange()
    see("a client of before", (verdict[0], verdict[2] & CONFIRMED), (old.client, CONFIRMED))
    content = b"written %06d" % old.number
    old.good(*there(b"opened"), write(stateid, content))
    got = old.good(*there(b"opened"), read(stateid))
    for number in (24, 15, 25):
        got.head(number)
    see("what an open of before reads", (got.word(), got.opaque()), (1, content))
    new = Peer(server, f"makes {old.number} {old.client}")
    other = new.open(b"opened")
    see("the number of an open is new", other[4:] == stateid[4:], False)
    # a number that no open has is none, and so is that of an open which is another client's
    for wrong in (stateid[:4] + hyper(0) + words(9999), stateid):
        see("a stateid of nobody", new.call(*there(b"opened"), write(wrong, b"x")).status, BAD_STATEID)
    return new


ROOT, GETFH, SAVEFH, RESTOREFH = words(24), words(10), words(32), words(31)


def there(path):
    """To the directory of a path."""
    return [ROOT, *(words(15) + opaque(name) for name in path.split(b"/") if name)]


def new_directory(name):
    return words(6, DIRECTORY) + opaque(name) + words(0, 0)


def new_link(name, text):
    return words(6, LINK) + opaque(text) + opaque(name) + words(0, 0)


def remove(name):
    return words(28) + opaque(name)


def rename(old, new):
    return words(29) + opaque(old) + opaque(new)


def opening(peer, name, how):
    """OPEN to read and write; `how` is 1 where the file has to be new (GUARDED4), None where it has to be there."""
    front = words(18, 0, 3, 0) + hyper(peer.client) + opaque(peer.owner)
    made = words(0) if how is None else words(1, how, 0, 0)
    return front + made + words(0) + opaque(name)


def content_of(peer, handle):
    """The bytes of a file, by a stateid that stands for none (RFC 8881, section 8.2.3)."""
    content = b""
    while True:
        got = peer.good(words(22) + opaque(handle), words(25) + words(0, 0, 0, 0) + hyper(len(content)) + words(32768))
        got.head(22)
        got.head(25)
        is_over, more = got.word(), got.opaque()
        content += more
        if is_over:
            return content


def facts_of(peer, handle):
    """The attributes of an object, as they are sent."""
    got = peer.good(words(22) + opaque(handle), words(9) + bitmap(ATTRIBUTES))
    got.head(22)
    return got.left


def names_of(peer, handle):
    """The names of a directory with their cookies, and its verifier."""
    names, cookie, verifier = [], 0, bytes(8)
    while True:
        got = peer.good(words(22) + opaque(handle), words(26) + hyper(cookie) + verifier + words(8192, 32768, 0))
        got.head(22)
        got.head(26)
        verifier = got.take(8)
        while got.word():
            cookie = got.hyper()
            names.append((cookie, got.opaque()))
            see("attributes that weren't asked for", (got.word(), got.opaque()), (0, b""))
        if got.word():
            return names, verifier


def picture(server):
    """Each path with its handle, its attributes, and its bytes, text or names."""
    peer, seen = Peer(server, "looks"), {}
    got = peer.good(ROOT, GETFH)
    got.head(24)
    got.head(10)
    left = [(b"", got.opaque())]
    while left:
        path, handle = left.pop()
        facts = facts_of(peer, handle)
        # after the status of GETATTR, the bitmap and the length the type comes first
        kind = struct.unpack(">I", facts[8 + 4 + 8 + 4:][:4])[0]
        if kind == DIRECTORY:
            held = names_of(peer, handle)
            for _, name in held[0]:
                got = peer.good(words(22) + opaque(handle), words(15) + opaque(name), GETFH)
                for number in (22, 15, 10):
                    got.head(number)
                left.append((path + b"/" + name, got.opaque()))
        elif kind == FILE:
            held = content_of(peer, handle)
        else:
            held = peer.good(words(22) + opaque(handle), words(27)).left
        seen[path] = (handle, facts, held)
    peer.close()
    return seen


def held(peer, folder):
    """The files of a directory, with their bytes, of which each has at most 32,768."""
    found, way = {}, there(folder)
    got = peer.good(*way, words(26) + hyper(0) + bytes(8) + words(8192, 32768, 0))
    for number in (24, *[15] * (len(way) - 1), 26):
        got.head(number)
    got.take(8)
    while got.word():
        got.take(8)
        found[got.opaque()] = b""
        got.take(8)
    see("all names of a directory", got.word(), 1)
    for name in found:
        got = peer.good(*way, words(15) + opaque(name), words(25) + words(0, 0, 0, 0) + hyper(0) + words(32768))
        for number in (24, *[15] * len(way), 25):
            got.head(number)
        see("all bytes of a file", got.word(), 1)
        found[name] = got.opaque()
    return found


def nfsc(server, *command, said=b"ok\n"):
    call = [Server.programs["nfsc"], "--port", str(server.port), "--uid", "0", "--gid", "0", *command]
    ran = subprocess.run(call, capture_output=True, timeout=PATIENCE, check=False)
    see(" ".join(command)[:80], (ran.stdout, ran.stderr, ran.returncode), (said, b"", 0))


def four_writers(server):
    """Four writers that have begun, each in a directory of its own."""
    peer = Peer(server, "makes")
    for number in range(4):
        peer.good(ROOT, new_directory(b"%d" % number))
    writers = [Writer(server, number, {}) for number in range(4)]
    for it in writers:
        it.start()
    return writers


def import_files(room, folder, count, size):
    """Makes a store whose checkpoint has so many files of so many bytes. Their names."""
    place = f"{room}/source {os.path.basename(folder)}"
    os.mkdir(place)
    for number in range(count):
        with open(f"{place}/file{number}", "wb") as it:
            it.write(RANDOM.randbytes(size))
    see("an import", nfstore(folder, "--import", place), (b"", "", 0))
    return [b"file%d" % number for number in range(count)]


def names_in_root(server):
    """The names in the root."""
    peer = Peer(server, "looks")
    got = peer.good(ROOT, GETFH)
    got.head(24)
    got.head(10)
    found = [name for _, name in names_of(peer, got.opaque())[0]]
    peer.close()
    return found


# as many connections as may be open at a time
WRITERS = 16


class Writer(threading.Thread):
    """Changes a directory of its own until the server goes, and knows what has to be there then: what was answered, or one call more."""

    def __init__(self, server, number, holds):
        super().__init__(daemon=True)
        self.server, self.number, self.holds = server, number, dict(holds)
        self.maybe, self.answered, self.own, self.wrong = dict(holds), 0, random.Random(RANDOM.random()), None
        # what has held after each call that was answered
        self.history = [self.holds]

    def next(self, peer):
        """The next change: what holds after it, and the call."""
        after, own, folder = dict(self.holds), self.own, b"%d" % self.number
        choice = own.random()
        if len(after) > 5 and choice < 0.4:
            name = own.choice(sorted(after))
            del after[name]
            return after, lambda: peer.good(*there(folder), remove(name))
        if after and choice < 0.6:
            old, new = own.choice(sorted(after)), b"r%d" % own.randrange(1000)
            after[new] = after.pop(old)
            return after, lambda: peer.good(*there(folder), SAVEFH, rename(old, new))
        name, content = b"f%d" % own.randrange(1000), own.randbytes(own.choice((1, 700, 4000, 30_000)))
        # a file that is there keeps the bytes that the new ones don't reach
        after[name] = content + after.get(name, b"")[len(content):]
        return after, lambda: peer.make(folder, name, content)

    def run(self):
        try:
            peer = Peer(self.server, f"writer {self.number}")
            while True:
                self.maybe, ask = self.next(peer)
                ask()
                self.history.append(self.maybe)
                self.holds, self.answered = self.maybe, self.answered + 1
        except (Gone, OSError):
            pass
        except SystemExit as wrong:
            self.wrong = wrong

    def ends(self):
        """Waits for it, after the server has gone."""
        self.join(PATIENCE)
        if self.wrong:
            raise self.wrong
