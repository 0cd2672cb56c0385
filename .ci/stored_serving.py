"""Scenes of .ci/stored: the state of a server after it is started again, and calls in progress when it is killed."""
import contextlib
import os
import select
import signal
import time

from stored_bytes import records_in
from stored_lab import (
    ATTRIBUTES, BAD_STATEID, BADSESSION, COMPLETE_ALREADY, GETFH, MOST_AHEAD, NFS_OK, NOSPC, PATIENCE, PERSIST,
    RANDOM, ROOT, SAVEFH, SEQ_FALSE_RETRY, SEQ_MISORDERED, STALE, STALE_CLIENTID, bitmap, Gone,
    hyper, new_directory, new_link, nfsc, opaque, opening, Peer, picture, remove, rename, Results, see,
    see_remembered, Server, there, words, write,
)

# what a folder has, with its mode
MODES = {".": "0o40700", **dict.fromkeys(("LOCK", "CURRENT", "CURRENT.spare", "tree.a", "tree.b"), "0o100600")}


def kept(room, _):
    """Everything is there after a kill and after an end: handles, change values, times, lists, cookies; and no number is given twice."""
    folder = f"{room}/kept"
    server = Server(folder)
    see("the modes", {name: oct(os.stat(f"{folder}/{name}").st_mode) for name in (".", *os.listdir(folder))}, MODES)
    nfsc(server, "mkdir", "/docs")
    nfsc(server, "put", "/docs/plan", "a" * 70_000)
    nfsc(server, "put", "/docs/plan", "shorter")
    nfsc(server, "put", "/gone", "x")
    nfsc(server, "ln", "/docs/plan", "/second")
    nfsc(server, "chmod", "2751", "/docs")
    nfsc(server, "setfacl", "/docs/plan", "A::OWNER@:rwatTnNcCoy", "D:g:100:w", "A:g:100:r", "U:S:1002:r", "A::EVERYONE@:rtncy")
    peer = Peer(server, "makes")
    clients = {peer.client}
    peer.good(*there(b"docs"), new_link(b"way", b"../second"))
    got = peer.good(*there(b"gone"), GETFH)
    for number in (24, 15, 10):
        got.head(number)
    gone = got.opaque()
    nfsc(server, "rm", "/gone")
    nfsc(server, "mv", "/second", "/docs/two\nlines")
    peer.make(b"", b"opened", b"")
    for how in (signal.SIGKILL, signal.SIGTERM, signal.SIGKILL):
        stateid, before = peer.open(b"opened"), picture(server)
        server.kill(how)
        server = Server(folder)
        see("what is there after a restart", picture(server), before)
        peer = see_remembered(server, peer, stateid)
        see("the number of a client is new", peer.client in clients, False)
        clients.add(peer.client)
        see("the handle of what is gone", peer.call(words(22) + opaque(gone)).status, STALE)
        peer.make(b"docs", b"more%d" % len(clients), b"y" * 5000)
        see("the handle of what is gone", peer.call(words(22) + opaque(gone)).status, STALE)
    server.kill()


def granted(room, _):
    """CREATE_SESSION4_FLAG_PERSIST is granted with a store, where it is asked for, and not without one."""
    for folder, wanted in ((f"{room}/granted", PERSIST), (None, 0)):
        server = Server(folder)
        see("the flags where persistence is asked for", Peer(server, "asks", flags=PERSIST).granted, wanted)
        see("the flags where nothing is asked for", Peer(server, "asks not").granted, 0)
        server.kill()


def numbers(room, _):
    """Slots on which calls came that changed nothing: the next numbers go on after a kill, also past 2^20 of them."""
    folder = f"{room}/numbers"
    server = Server(folder)
    peer = Peer(server, "looks on")
    peer.good(ROOT, new_directory(b"d"))
    count = records_in(folder)
    for _ in range(5):
        peer.good(ROOT, words(9) + bitmap(ATTRIBUTES))
    see("records of calls that changed nothing", records_in(folder) - count, 0)
    server.kill()
    server = Server(folder)
    peer.go_on(server)
    # the last call that is kept is the first one, whose number stands for that call alone
    see("another call with a number that is kept", peer.status(1, ROOT), SEQ_FALSE_RETRY)
    see("a number before it", peer.status(0, ROOT), SEQ_MISORDERED)
    see("a number too far ahead", peer.status(2 + MOST_AHEAD, ROOT), SEQ_MISORDERED)
    # the last call had no reply, or it had one
    see("the last call again", peer.status(peer.number, ROOT, words(9) + bitmap(ATTRIBUTES)), NFS_OK)
    see("two numbers ahead, after a call", peer.status(peer.number + 2, ROOT), SEQ_MISORDERED)
    see("the next call", peer.status(peer.number + 1, ROOT), NFS_OK)
    peer.number += 1
    for number in (MOST_AHEAD, 2 * MOST_AHEAD, 3 * MOST_AHEAD):
        server.kill()
        server = Server(folder)
        peer.go_on(server)
        count = records_in(folder)
        # on a slot that nothing is kept of, and then 2^20 after what is kept
        see("the last number before a multiple of 2^20", peer.status(number - 1, ROOT, slot=1), NFS_OK)
        see("records of it", records_in(folder) - count, 0)
        see("a multiple of 2^20", peer.status(number, ROOT, slot=1), NFS_OK)
        see("its record", records_in(folder) - count, 1)
        see("the number after it", peer.status(number + 1, ROOT, slot=1), NFS_OK)
        see("records of that", records_in(folder) - count, 1)
        see("the next call on the other slot", peer.status(peer.number + 1, ROOT), NFS_OK)
        peer.number += 1
    server.kill()


def two_clients(room, _):
    """Two clients keep their own sessions, opens and numbers over a restart, and neither is taken for the other."""
    folder = f"{room}/two"
    server = Server(folder)
    peers = [Peer(server, "one", 0), Peer(server, "other", 0), Peer(server, "gone", 0)]
    for number, it in enumerate(peers[:2]):
        it.good(ROOT, new_directory(b"%d" % number))
    see("RECLAIM_COMPLETE", peers[0].call(words(58, 0)).status, NFS_OK)
    gone = peers.pop()
    see("DESTROY_SESSION", gone.ask(1, words(44) + gone.session).status, NFS_OK)
    for it in peers:
        it.make(b"", b"opened", b"old")
    stateids = [it.open(b"opened") for it in peers]
    # nothing is kept after the last open but that
    server.kill()
    server = Server(folder)
    for it in (*peers, gone):
        it.go_on(server)
    see("a session that was destroyed", gone.status(1, ROOT), BADSESSION)
    see("RECLAIM_COMPLETE a second time", peers[0].call(words(58, 0)).status, COMPLETE_ALREADY)
    see("RECLAIM_COMPLETE of the other one", peers[1].call(words(58, 0)).status, NFS_OK)
    for number, (it, stateid) in enumerate(zip(peers, stateids)):
        see("an open of before", it.call(*there(b"opened"), write(stateid, b"new")).status, NFS_OK)
        other = peers[1 - number]
        see("an open of the other one", other.call(*there(b"opened"), write(stateid, b"x")).status, BAD_STATEID)
        see("DESTROY_CLIENTID", it.ask(1, words(57) + hyper(it.client)).status, 10074)
    # the last call of one, sent by another user, and with other operations
    one = peers[0]
    one.good(ROOT, new_directory(b"last"))
    server.kill()
    server = Server(folder)
    for it in (*peers, gone):
        it.go_on(server)
    one.uid = 1001
    see("a call of another user", one.status(one.number, ROOT, new_directory(b"last")), SEQ_FALSE_RETRY)
    one.uid = 0
    see("another call", one.status(one.number, ROOT, new_directory(b"more")), SEQ_FALSE_RETRY)
    see("the same call", one.status(one.number, ROOT, new_directory(b"last")), NFS_OK)
    see("a client that has no session", gone.ask(1, words(57) + hyper(gone.client)).status, NFS_OK)
    server.kill()
    server = Server(folder)
    gone.go_on(server)
    see("a client that was destroyed", gone.ask(1, gone.creation(2, 0)).status, STALE_CLIENTID)
    # CREATE_SESSION of before gets its kept result, and makes nothing
    peers[1].go_on(server)
    got = peers[1].ask(1, peers[1].creation(1, 0))
    got.head(43)
    see("CREATE_SESSION again", got.take(16), peers[1].session)
    server.kill()


def owners(room, _):
    """64 clients are kept over a restart, and count as heard when the server starts: none is let go at once."""
    folder = f"{room}/owners"
    server = Server(folder, options=("--leases",))
    peer = Peer(server, "first")
    for number in range(63):
        peer.owner = b"owner %d" % number
        peer.exchange()
    for _ in range(2):
        peer.owner = b"one more"
        call = words(42) + hyper(7) + opaque(peer.owner) + words(0, 0, 0)
        see("a client more than 64", peer.ask(1, call).status, NOSPC)
        server.kill()
        server = Server(folder, options=("--leases",))
        peer.go_on(server)
        # a turn lets one go, if one is to go
        for _ in range(3):
            peer.good(ROOT)
    server.kill()


def change_of(peer, path):
    """The change value of an object."""
    got = peer.good(*there(path), words(9) + bitmap([3]))
    got.head(24)
    for _ in path.split(b"/") if path else ():
        got.head(15)
    got.head(9)
    got.take(12)
    return got.hyper()


def ticks(peer):
    """How many changes there were so far: the change value that one more gets."""
    peer.good(*there(b"probe"), words(34) + words(0, 0, 0, 0) + bitmap([33]) + words(4, 0o755))
    return change_of(peer, b"probe")


def change_calls(peer, number):
    """A call of each operation that changes anything, in a directory that has what it needs, and what it changes."""
    d = b"d%d" % number
    stateid = peer.open_in(d, b"closes")
    return {
        "CREATE": [*there(d), new_directory(b"made")],
        "LINK": [*there(d + b"/file"), SAVEFH, *there(d), words(11) + opaque(b"linked")],
        "OPEN": [*there(d), opening(peer, b"new", 1)],
        "CLOSE": [*there(d + b"/closes"), words(4, 0) + stateid],
        "REMOVE": [*there(d), remove(b"goes")],
        "RENAME": [*there(d), SAVEFH, rename(b"old", b"renamed")],
        "SETATTR": [*there(d + b"/file"), words(34) + words(0, 0, 0, 0) + bitmap([33]) + words(4, 0o700)],
        "WRITE": [*there(d + b"/file"), write(words(0, 0, 0, 0), b"w" * (1 + number))],
    }


def prepare(peer, number):
    """Makes the directory of a round."""
    d = b"d%d" % number
    peer.good(ROOT, new_directory(d))
    for name in (b"file", b"goes", b"old", b"closes"):
        peer.make(d, name, b"content")


class Round:
    """One call of each operation, each on a session of its own."""

    def __init__(self, server, makes, peers, number):
        self.peers = peers
        prepare(makes, number)
        calls = change_calls(peers["CLOSE"], number)
        self.calls = {}
        for name, peer in peers.items():
            peer.number += 1
            # the change value of the directory comes after it, as a result that a second run would change
            operations = [peer.sequence(peer.number), *calls[name], *there(b"d%d" % number), words(9) + bitmap([3])]
            self.calls[name] = (len(operations), b"".join(operations))

    def send(self):
        for name in RANDOM.sample(CHANGING, len(CHANGING)):
            self.peers[name].send(*self.calls[name])
            time.sleep(0.001 * RANDOM.random())

    def replies(self):
        """The replies that come, by operation."""
        got = {}
        for name, peer in self.peers.items():
            with contextlib.suppress(Gone):
                got[name] = peer.reply()
        return got

    def again(self, server):
        """All calls once more, on new connections: their replies."""
        got = {}
        for name, peer in self.peers.items():
            peer.go_on(server)
            peer.send_again(*self.calls[name])
            got[name] = peer.reply()
        return got


CHANGING = ("CREATE", "LINK", "OPEN", "CLOSE", "REMOVE", "RENAME", "SETATTR", "WRITE")


def wait_for_record(folder, count):
    """Until there are more records: then the server may be about to reply."""
    end = time.monotonic() + PATIENCE
    while records_in(folder) == count and time.monotonic() < end:
        pass


def wait_for_replies(peers):
    """Until a reply is there for each of them, which nobody reads."""
    for peer in peers:
        see("a reply is there", bool(select.select([peer.stream], [], [], PATIENCE)[0]), True)


def again(room, kills):
    """The server is killed after it was sent a call of each operation that changes anything, and before its replies are
    read. The same calls again, on new connections, get their first results, and each has acted once. CLOSE changes no
    object, so it isn't counted; a second run of it would be refused."""
    folder, acted, had = f"{room}/again", 0, 0
    server = Server(folder)
    makes = Peer(server, "makes")
    makes.good(ROOT, new_directory(b"probe"))
    peers = {name: Peer(server, name, flags=PERSIST) for name in CHANGING}
    # undisturbed: how many changes such a round makes
    first = Round(server, makes, peers, 0)
    before, begun = ticks(makes), time.monotonic()
    first.send()
    see_first(first.replies())
    takes, once = time.monotonic() - begun, ticks(makes) - before
    for number in range(1, kills + 1):
        round_of = Round(server, makes, peers, number)
        before, records = ticks(makes), records_in(folder)
        round_of.send()
        if number % 3 == 0:
            wait_for_replies(peers.values())
        elif number % 3 == 1:
            wait_for_record(folder, records)
        if number % 3:
            time.sleep(takes * RANDOM.random())
        server.kill()
        told = round_of.replies()
        server = Server(folder)
        makes.go_on(server)
        # the change of the probe is one too
        acted += ticks(makes) - before - 1
        got = round_of.again(server)
        see_first(got)
        for name, reply in told.items():
            see(f"{name} again, after its reply was written", got[name], reply)
        see("a third time", round_of.again(server), got)
        see("how many changes there were", ticks(makes) - before - 1, once)
        had += len(told)
    server.kill()
    count = kills * len(CHANGING)
    return f"of {count} calls that {kills} kills met {acted} had acted and {had} were answered, and each acted once"


def see_first(replies):
    """All went well, as a second run of most of them wouldn't."""
    see("the calls that are answered", sorted(replies), sorted(CHANGING))
    statuses = {name: Results(reply[24:]).status for name, reply in replies.items()}
    see("their statuses", statuses, dict.fromkeys(CHANGING, NFS_OK))
