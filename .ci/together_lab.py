"""A server that listens, calls and sessions over it, and the expected answers, for the scenes of .ci/together."""
import signal
import socket
import struct
import subprocess
import sys

PATIENCE = 30


def words(*numbers):
    return struct.pack(f">{len(numbers)}I", *numbers)


def hyper(number):
    return struct.pack(">Q", number)


def record(content):
    return words(0x8000_0000 | len(content)) + content


def null(xid):
    return record(words(xid, 0, 2, 100003, 4, 0, 0, 0, 0, 0))


def null_reply(xid):
    return record(words(xid, 1, 0, 0, 0, 0))


def compound(xid, uid, count, operations):
    return record(words(xid, 0, 2, 100003, 4, 1, 1, 20, 0, 0, uid, 100, 0, 0, 0, 0, 1, count) + operations)


def exchange(xid, uid, owner):
    """EXCHANGE_ID of an owner whose name is one letter (RFC 8881, section 18.35)."""
    return compound(xid, uid, 1, words(42, 0, 0, 1, owner << 24, 0, 0, 0))


def exchanged(xid, client):
    """Its reply, where the client has this number."""
    name = words(11) + b"nfs41-lists\0"
    return record(words(xid, 1, 0, 0, 0, 0, 0, 0, 1, 42, 0, 0, client, 1, 0x1_0000, 0, 0, 0) + name + name + words(0))


def server_said(server):
    """What a server that is stopped has said on standard error, line by line."""
    server.ran.send_signal(signal.SIGTERM)
    see("the status", server.ran.wait(timeout=PATIENCE), -signal.SIGTERM)
    return server.ran.stderr.read().splitlines(keepends=True)


def free_port():
    with socket.socket() as it:
        it.bind(("127.0.0.1", 0))
        return it.getsockname()[1]


class Server:
    """A server that listens, with these options."""

    def __init__(self, program, *options, stderr=subprocess.PIPE, first=None, env=None):
        self.port = free_port()
        words = [program, "--port", str(self.port), *options]
        self.ran = subprocess.Popen(words, stdout=subprocess.PIPE, stderr=stderr, text=True, preexec_fn=first, env=env)
        see("what it says first", self.ran.stdout.readline(), f"listening on 127.0.0.1:{self.port}\n")

    def connect(self, port=0):
        """A connection, from any port or from this one."""
        peer = socket.socket()
        peer.settimeout(PATIENCE)
        peer.setsockopt(socket.SOL_SOCKET, socket.SO_REUSEADDR, 1)
        peer.bind(("127.0.0.1", port))
        peer.connect(("127.0.0.1", self.port))
        return peer

    def ends(self, status, said):
        see("the status", self.ran.wait(timeout=PATIENCE), status)
        see("what it says last", self.ran.stderr.read(), said)

    def stop(self, said=""):
        self.ran.send_signal(signal.SIGTERM)
        self.ends(-signal.SIGTERM, said)


def see(what, given, wanted):
    if given != wanted:
        sys.exit(f"together: {what}: {given!r}, and not {wanted!r}")


def some(peer, count):
    """So many bytes of a peer, or those that come before its end."""
    got = b""
    while len(got) < count:
        more = peer.recv(count - len(got))
        if not more:
            break
        got += more
    return got


def reply(peer):
    """The results of a reply, or None where the stream ends."""
    mark = some(peer, 4)
    return some(peer, struct.unpack(">I", mark)[0] & 0x7FFF_FFFF)[24:] if len(mark) == 4 else None


def session(server, owner, uid):
    """A peer with a client and a session of its own, and the session's id (RFC 8881, section 18.36)."""
    peer = server.connect()
    peer.sendall(exchange(1, uid, owner))
    told = reply(peer)
    channel = words(0, 65536, 65536, 65536, 16, 8, 0)
    peer.sendall(compound(2, uid, 1, words(43) + told[20:28] + told[28:32] + words(0) + channel + channel + words(0x4000_0000, 1, 0)))
    return peer, reply(peer)[20:36]


class Session:
    """A client with a session of its own on a connection, which calls in its first slot."""

    def __init__(self, server, owner, uid):
        self.peer, self.name = session(server, owner, uid)
        self.uid = uid
        self.number = 0

    def record(self, count, operations):
        """The record of a call of SEQUENCE and these operations."""
        self.number += 1
        return compound(9 + self.number, self.uid, count + 1, words(53) + self.name + words(self.number, 0, 7, 0) + operations)

    def call(self, count, operations):
        """The status of a call, and its results from the count of operations on; or None where the stream ends."""
        self.peer.sendall(self.record(count, operations))
        return self.answer()

    def answer(self):
        told = reply(self.peer)
        return (struct.unpack(">I", told[:4])[0], told[8:]) if told is not None else None

    def status(self, count, operations):
        told = self.call(count, operations)
        return None if told is None else told[0]

    def go_on(self, server):
        """Goes on in the session, over another connection."""
        self.peer.close()
        self.peer = server.connect()


def opaque(text):
    return words(len(text)) + text + bytes(-len(text) % 4)


# operations, by their numbers in RFC 8881
ROOT = words(24)
GETATTR_SIZE = words(9, 1, 0x10)


def lookup(name):
    return words(15) + opaque(name)


def create(name):
    """CREATE of a directory."""
    return words(6, 2) + opaque(name) + words(0, 0)


def create_of(name, mode):
    """CREATE of a directory of this mode."""
    return words(6, 2) + opaque(name) + words(2, 0, 2, 4, mode)


def make_file(name, mode):
    """OPEN that makes a file of this mode, for read and write."""
    return words(18, 0, 3, 0, 0, 0) + opaque(b"o") + words(1, 0, 2, 0, 2, 4, mode) + words(0) + opaque(name)


def read(count):
    return words(25, 0, 0, 0, 0, 0, 0, count)


def set_list(entries):
    """SETATTR of the attribute acl."""
    values = words(len(entries)) + b"".join(words(*entry) + opaque(b"EVERYONE@") for entry in entries)
    return words(34, 0, 0, 0, 0, 1, 0x1000) + opaque(values)


def lines_of(path):
    with open(path, encoding="ascii") as it:
        return it.read().splitlines(keepends=True)


def write_text(path, text):
    with open(path, "w", encoding="ascii") as it:
        it.write(text)


def book_text(staff):
    """A book whose root is the group's to use alone, with these users in the group."""
    keys = 'domain = "d"\nroot_owner = 0\nroot_group = 100\nroot_mode = 0o770\nusers = { bob = 1002 }\ngroups = { staff = 100 }\n'
    return f"{keys}members = {{ staff = {staff} }}\n"


OPEN_BOOK = 'domain = "d"\nroot_owner = 0\nroot_group = 0\nroot_mode = 0o777\nusers = {}\ngroups = {}\n'
