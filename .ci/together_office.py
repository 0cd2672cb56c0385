"""Scenes of the office profile, for .ci/together: long files, many connections and clients, lines about limits, and stores of the other profile."""
import os
import random
import struct
import subprocess

from together_lab import PATIENCE, ROOT, Server, Session, compound, free_port, hyper, lookup, make_file, null, null_reply, opaque, reply, see, some, words

OFFICE = ("--profile", "office")
NOSPC, FBIG, DELAY = 28, 27, 10008
# bytes of the longest file (RFC 8881, section 5.8.2.26)
MOST = 1 << 40
# bytes of one WRITE and of one READ
PIECE = 32_768
# what SEQUENCE, PUTROOTFH and LOOKUP take of the results, after the count of results
FRONT = 4 + 44 + 8 + 8


def write_at(offset, content):
    """WRITE by the anonymous stateid (RFC 8881, section 8.2.3), to stable storage."""
    return words(38, 0, 0, 0, 0) + hyper(offset) + words(2) + opaque(content)


def read_at(offset, count):
    return words(25, 0, 0, 0, 0) + hyper(offset) + words(count)


def size_to(size):
    """SETATTR of a size."""
    return words(34, 0, 0, 0, 0, 1, 0x10) + opaque(hyper(size))


def make_sized(name, size):
    """OPEN that makes a file of this size, for read and write."""
    return words(18, 0, 3, 0, 0, 0) + opaque(b"o") + words(1, 0, 1, 0x10) + opaque(hyper(size)) + words(0) + opaque(name)


class Caller(Session):
    """A client whose owner has a name of any length, with a session, which calls as root. `status`: that of EXCHANGE_ID, where it is refused."""

    def __init__(self, server, owner):
        self.peer, self.uid, self.number, self.refused = server.connect(), 0, 0, None
        self.peer.sendall(compound(1, 0, 1, words(42, 0, 0) + opaque(owner) + words(0, 0, 0)))
        answer = reply(self.peer)
        if answer[:4] != words(0):
            self.refused = struct.unpack(">I", answer[:4])[0]
            return
        self.client = answer[20:28]
        channel = words(0, 65536, 65536, 65536, 16, 8, 0)
        self.peer.sendall(compound(2, 0, 1, words(43) + answer[20:32] + words(0) + channel + channel + words(0x4000_0000, 1, 0)))
        self.name = reply(self.peer)[20:36]

    def ends(self, server):
        """Ends its session and then its client (RFC 8881, sections 18.37 and 18.50), over a connection of its own."""
        peer = server.connect()
        for xid, operation in enumerate((words(44) + self.name, words(57) + self.client)):
            peer.sendall(compound(3 + xid, 0, 1, operation))
            see("the status of an end", reply(peer)[:4], words(0))
        peer.close()


def alone(server, owner):
    """A caller whose connection is closed."""
    caller = Caller(server, owner)
    caller.peer.close()
    return caller


def content_of(caller, name, offset, count):
    """So many bytes of a file of the root."""
    got = b""
    while len(got) < count:
        most = min(PIECE, count - len(got))
        status, answer = caller.call(3, ROOT + lookup(name) + read_at(offset + len(got), most))
        see("the status of a READ", status, 0)
        length = struct.unpack(">I", answer[FRONT + 12 : FRONT + 16])[0]
        see("the bytes of a READ", length, most)
        got += answer[FRONT + 16 : FRONT + 16 + length]
    return got


def number_of(caller, name, attribute):
    """An attribute of 64 bits, below 32, of a file of the root."""
    status, answer = caller.call(3, ROOT + lookup(name) + words(9, 1, 1 << attribute))
    see("the status of a GETATTR", status, 0)
    see("the attributes of a GETATTR", answer[FRONT + 8 : FRONT + 20], words(1, 1 << attribute, 8))
    return struct.unpack(">Q", answer[FRONT + 20 : FRONT + 28])[0]


def see_long_file(caller, content):
    """The file has its bytes, zeros after them, and one byte at its end."""
    see("the bytes of a long file", content_of(caller, b"long", 0, len(content)), content)
    for offset in (len(content), MOST // 2, MOST - 1 - PIECE):
        see("the bytes that nobody wrote", content_of(caller, b"long", offset, PIECE), bytes(PIECE))
    see("the last byte", content_of(caller, b"long", MOST - 1, 1), b"!")
    see("the size of a long file", number_of(caller, b"long", 4), MOST)


def long_file(program, room):
    """A file of more than 1 MiB is written in pieces, has a byte at 2^40 - 1 and none after it, and is as it was after a kill and a restart."""
    home = f"{room}/home"
    content = random.Random(40).randbytes(3 * (1 << 20) + 5)
    server = Server(program, "--home", home, *OFFICE)
    caller = Caller(server, b"first")
    see("the status of an OPEN", caller.status(2, ROOT + make_file(b"long", 0o644)), 0)
    there = ROOT + lookup(b"long")
    for offset in range(0, len(content), PIECE):
        see("the status of a WRITE", caller.status(3, there + write_at(offset, content[offset : offset + PIECE])), 0)
    see("the size by pieces", number_of(caller, b"long", 4), len(content))
    see("maxfilesize", number_of(caller, b"long", 27), MOST)
    see("the status of a WRITE at the end", caller.status(3, there + write_at(MOST - 1, b"!")), 0)
    for operation in (write_at(MOST, b"!"), write_at(MOST - 1, b"!!"), size_to(MOST + 1)):
        see("the status beyond the end", caller.status(3, there + operation), FBIG)
    for size, status in ((1 << 20, 0), ((1 << 20) + 1, DELAY), (MOST, DELAY), (MOST + 1, FBIG)):
        see(f"the status of an OPEN that makes {size} bytes", caller.status(2, ROOT + make_sized(b"sized %d" % size, size)), status)
    see_long_file(caller, content)
    server.ran.kill()
    server.ends(-9, "")
    server = Server(program, "--home", home, *OFFICE)
    see_long_file(Caller(server, b"second"), content)
    server.stop()


def line_of(used, name, advice):
    return f"nfsd: {used} of 256 {name} ({100 * used // 256}%): at the limit {advice}\n"


def many_connections(program, room):
    """17 and then 256 connections are served at once, with a line at 80, 95 and 100 of 100; the next one is served once a quiet one is let go."""
    server = Server(program, "--home", f"{room}/home", *OFFICE)
    peers = []
    for xid in range(256):
        peers.append(server.connect())
        peers[-1].sendall(null(xid))
        see("the reply to a further connection", some(peers[-1], 28), null_reply(xid))
    for count in (17, 256):
        for xid, peer in enumerate(peers[:count]):
            peer.sendall(null(xid)[:17])
        for xid, peer in reversed([*enumerate(peers[:count])]):
            peer.sendall(null(xid)[17:])
        for xid, peer in enumerate(peers[:count]):
            see(f"the reply to one of {count}", some(peer, 28), null_reply(xid))
    late = server.connect()
    late.sendall(null(999))
    see("the reply to the 257th", some(late, 28), null_reply(999))
    lines = [line_of(count, "connections", "the next one waits until one ends or is quiet") for count in (205, 244, 256)]
    server.stop("".join(lines) + "nfsd: end 9\n")


ADVICE = (
    ("clients", "new clients are refused with NOSPC; unmount where no files are used"),
    ("sessions", "new sessions are refused with NOSPC; unmount where no files are used"),
)


def more_clients(program, room):
    """A home under the office profile has 65 clients with a session each, one more than the standard profile permits, and nothing is said of them."""
    server = Server(program, "--home", f"{room}/home", *OFFICE)
    callers = [alone(server, b"owner %d" % number) for number in range(65)]
    for caller in callers:
        see("the refusal of a client", caller.refused, None)
    for caller in (callers[0], callers[64]):
        caller.go_on(server)
        see("the status of a call", caller.status(1, ROOT), 0)
    server.stop()


def many_clients(program, _room):
    """256 clients with a session each are there, and the next one is refused. Lines come at 80, 95 and 100 of 100, and again once less than 75 were there.
    There are no leases, so none of them expires, however slow the machine is."""
    server = Server(program, "--concurrent", *OFFICE)
    callers = []
    for number in range(256):
        callers.append(alone(server, b"owner %d" % number))
        see(f"the refusal of client {number}", callers[-1].refused, None)
    see("the refusal of the 257th client", alone(server, b"late").refused, NOSPC)
    for caller in (callers[0], callers[64], callers[255]):
        caller.go_on(server)
        see("the status of a call", caller.status(1, ROOT), 0)
        caller.peer.close()
    for caller in callers[:65]:
        caller.ends(server)
    for number in range(14):
        see("the refusal where there is room", alone(server, b"again %d" % number).refused, None)
    lines = [line_of(count, *about) for count in (205, 244, 256, 205) for about in ADVICE]
    server.stop("".join(lines))


def standard_limits(program, room):
    """Without the option, and with --profile standard, 64 clients are there, the next one is refused, and nothing is said of it."""
    for number, options in enumerate(((), ("--profile", "standard"))):
        server = Server(program, "--home", f"{room}/home{number}", *options)
        for owner in range(64):
            see("the refusal of a client", alone(server, b"%d" % owner).refused, None)
        see("the refusal of the 65th client", alone(server, b"late").refused, NOSPC)
        server.stop()
        server = Server(program, *options)
        caller = Caller(server, b"root")
        see("the status of an OPEN", caller.status(2, ROOT + make_file(b"f", 0o644)), 0)
        see("maxfilesize", number_of(caller, b"f", 27), 1 << 20)
        server.stop()


def files_of(folder):
    """The bytes of each file below a folder."""
    found = {}
    for place, _, names in os.walk(folder):
        for name in names:
            with open(f"{place}/{name}", "rb") as it:
                found[f"{place}/{name}"] = it.read()
    return found


# the options of a profile, those of the other one, and what is said of a store of the first profile then
PROFILES = (
    (OFFICE, ((), ("--profile", "standard")), "it is a store of the office profile; start with --profile office"),
    (
        (),
        (OFFICE,),
        "it is a store of the standard profile; start without --profile office, or with another folder",
    ),
)


def other_profile(program, room):
    """A home isn't served under the other profile, with store 3 and a sentence, and nothing of it is changed; under its own it goes on."""
    for number, (own, others, why) in enumerate(PROFILES):
        home = f"{room}/home{number}"
        server = Server(program, "--home", home, *own)
        see("the status of an OPEN", Caller(server, b"first").status(2, ROOT + make_file(b"f", 0o644)), 0)
        server.stop()
        kept = files_of(home)
        for options in others:
            call = [program, "--port", str(free_port()), "--home", home, *options]
            ran = subprocess.run(call, capture_output=True, text=True, timeout=PATIENCE, check=False)
            see("a store of the other profile", (ran.returncode, ran.stdout, ran.stderr), (1, "", f"nfsd: store 3\n{home}/store: {why}\n"))
            see("the files of the home", files_of(home) == kept, True)
        server = Server(program, "--home", home, *own)
        see("the status of a LOOKUP", Caller(server, b"second").status(2, ROOT + lookup(b"f")), 0)
        server.stop()


def words_of_profiles(program, _room):
    """A profile that isn't there, and that of an office with --bare, are refused with a sentence."""
    for options, why in (
        (("--profile", "big"), "invalid value 'big' for '--profile <NAME>': it is neither 'standard' nor 'office'"),
        (
            ("--bare", *OFFICE),
            "the argument '--profile office' cannot be used with '--bare', whose sample tree has the limits of the standard profile",
        ),
    ):
        ran = subprocess.run([program, *options], capture_output=True, stdin=subprocess.DEVNULL, text=True, timeout=PATIENCE, check=False)
        see("words of a profile", (ran.returncode, ran.stdout, ran.stderr.splitlines()[0]), (2, "", f"nfsd: {why}"))


SCENES = (words_of_profiles, standard_limits, long_file, many_connections, more_clients, many_clients, other_profile)
