"""The scene of .ci/stored in which a server is killed under connections that change it, and each call in progress is sent again."""
import random
import sys
import threading
import time

from stored_bits import close_by_another
from stored_lab import (
    NFS_OK, PATIENCE, PERSIST, RANDOM, ROOT, SAVEFH, WRITERS, bitmap, Gone, held, hyper, new_directory, nfstore, opaque, Peer,
    remove, rename, Results, see, Server, there, words,
)

# a file has at most as many bytes as one READ gives
MOST_BYTES = 32768


def new_file(peer, name, content):
    """Makes a file that has to be new (GUARDED4), with these bytes."""
    how = words(18, 0, 3, 0) + hyper(peer.client) + opaque(peer.owner) + words(1, 1, 0, 0, 0) + opaque(name)
    return [how, words(38, 0, 0, 0, 0) + hyper(0) + words(2) + opaque(content)]


def append(name, size, content):
    """Appends to a file that has this size."""
    return [words(15) + opaque(name), words(37) + bitmap([4]) + opaque(hyper(size)), words(38, 0, 0, 0, 0) + hyper(size) + words(2) + opaque(content)]


class Sender:
    """Changes a directory of its own, in one session over all starts. Each of its calls would be refused if it ran twice."""

    def __init__(self, server, number):
        self.peer, self.folder, self.own = Peer(server, f"sender {number}", flags=PERSIST), b"%d" % number, random.Random(RANDOM.random())
        self.holds, self.after, self.made, self.answered, self.wrong = {}, {}, 0, 0, None
        self.under_way = None
        self.peer.good(ROOT, new_directory(self.folder))

    def new_name(self):
        self.made += 1
        return b"n%d" % self.made

    def next(self):
        """Operations in its directory, and what it holds after them."""
        own, after = self.own, dict(self.holds)
        name, choice = own.choice(sorted(after) or [b""]), own.random()
        content = own.randbytes(own.choice((1, 700, 4000, 30_000)))
        if len(after) > 5 or after and choice < 0.2:
            del after[name]
            return [remove(name)], after
        if after and choice < 0.4:
            new = self.new_name()
            after[new] = after.pop(name)
            return [SAVEFH, rename(name, new)], after
        if after and choice < 0.7 and len(after[name]) + len(content) <= MOST_BYTES:
            after[name] += content
            return append(name, len(self.holds[name]), content), after
        new = self.new_name()
        after[new] = content
        return new_file(self.peer, new, content), after

    def begin(self):
        """The next call, which is under way from now on."""
        operations, self.after = self.next()
        self.peer.number += 1
        operations = [self.peer.sequence(self.peer.number), *there(self.folder), *operations]
        self.under_way = len(operations), b"".join(operations)

    def take(self, reply):
        see(f"a call of sender {self.folder.decode()}", Results(reply[24:]).status, NFS_OK)
        self.holds, self.answered = self.after, self.answered + 1

    def run(self):
        """Makes one call after the other, until the server goes."""
        try:
            while True:
                self.begin()
                self.peer.send(*self.under_way)
                self.take(self.peer.reply())
        except Gone:
            pass
        except SystemExit as wrong:
            self.wrong = wrong

    def again(self, server):
        """Sends the call that was under way again, and once more."""
        self.peer.go_on(server)
        self.peer.send_again(*self.under_way)
        reply = self.peer.reply()
        self.take(reply)
        self.answered -= 1
        self.peer.send_again(*self.under_way)
        see("a third time", self.peer.reply(), reply)


def let_send(server, senders):
    """The server is killed at any moment after some of their calls."""
    threads = [threading.Thread(target=it.run, daemon=True) for it in senders]
    before, count, end = sum(it.answered for it in senders), RANDOM.randrange(8 * len(senders)), time.monotonic() + PATIENCE
    for it in threads:
        it.start()
    while sum(it.answered for it in senders) - before < count and time.monotonic() < end:
        time.sleep(0.001)
    time.sleep(0.01 * RANDOM.random())
    server.kill()
    for it in threads:
        it.join(PATIENCE)
    for it in senders:
        if it.wrong:
            raise it.wrong


def acted(server, senders):
    """How many of the calls under way have acted. Each has whole or not, and all that was answered is there."""
    peer, count = Peer(server, "looks"), 0
    for it in senders:
        there_is = held(peer, it.folder)
        if there_is not in (it.holds, it.after):
            sys.exit(f"stored: sender {it.folder.decode()} lost something: {sorted(there_is)}, and not {sorted(it.holds)} or {sorted(it.after)}")
        count += there_is == it.after
    peer.close()
    return count


def killed(room, kills):
    """The server is killed at any moment under 16 connections. All that was answered is there. Each call that was under way is sent again in its session, gets
    a result as of its first run, and has acted once."""
    folder, had_acted = f"{room}/killed", 0
    server = Server(folder)
    senders = [Sender(server, number) for number in range(WRITERS)]
    for number in range(kills):
        if number % 3 == 2:
            # the first record of the senders begins a checkpoint, which the kill may meet
            server.kill()
            see("a store is closed", nfstore(folder, "--close"), (b"", "", 0))
            close_by_another(folder)
            server = Server(folder)
            for it in senders:
                it.peer.go_on(server)
        let_send(server, senders)
        server = Server(folder)
        had_acted += acted(server, senders)
        for it in senders:
            it.again(server)
            see("what stands after a call was sent again", held(it.peer, it.folder) == it.holds, True)
    server.kill()
    answered, count = sum(it.answered for it in senders), kills * WRITERS
    return f"of {answered} calls that were answered before {kills} kills none is lost; of {count} under way {had_acted} had acted, and sent again each acted once"
