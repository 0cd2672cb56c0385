"""Scenes of homes, for .ci/together: a home whose book is missing, one whose book appears later, and clocks that are set."""
import calendar
import os
import shutil
import struct
import subprocess
import time

from together_lab import PATIENCE, ROOT, Server, Session, book_text, create_of, free_port, lines_of, lookup, see, server_said, write_text

GONE = "it isn't there, and an earlier start had it; put it back, or remove had-book beside it to serve without a book"
UNNOTED = "had-book can't be written beside it, and no book counts without that: Is a directory (os error 21)"


def starts_not(program, home, why):
    """A home isn't served, for this reason."""
    words = [program, "--port", str(free_port()), "--home", home]
    ran = subprocess.run(words, capture_output=True, text=True, timeout=PATIENCE, check=False)
    see("a home that isn't served", (ran.returncode, ran.stdout, ran.stderr), (1, "", f"nfsd: file\n{home}/book.toml: {why}\n"))


def home_without_its_book(program, room):
    """A home that had a book isn't served without it, be it removed or a link that leads to nothing, until it is back or the note of it is removed."""
    home = f"{room}/home"
    book, note = f"{home}/book.toml", f"{home}/had-book"
    os.mkdir(home)
    write_text(book, "this is no book\n")
    ran = subprocess.run([program, "--home", home], capture_output=True, text=True, timeout=PATIENCE, check=False)
    see("a home whose book is none", (ran.returncode, ran.stderr.splitlines()[0], os.path.exists(note)), (1, "nfsd: book 1", False))
    write_text(book, book_text("[]"))
    for _time in range(2):
        server = Server(program, "--home", home)
        see("the note of a home with a book", os.path.getsize(note) > 0, True)
        see("the status by the book", Session(server, 0x61, 1002).status(2, ROOT + lookup(b"x")), 13)
        server.stop()
    os.rename(book, f"{home}/away")
    starts_not(program, home, GONE)
    os.symlink("nowhere", book)
    starts_not(program, home, GONE)
    os.remove(book)
    os.symlink("away", book)
    Server(program, "--home", home).stop()
    os.remove(book)
    starts_not(program, home, GONE)
    os.remove(note)
    Server(program, "--home", home).stop()
    see("the note of a home without a book", os.path.exists(note), False)
    os.rename(f"{home}/away", book)
    os.mkdir(note)
    starts_not(program, home, UNNOTED)


def book_that_comes_later(program, room):
    """A home that has no book as it starts looks for one: the next call is judged by it, and its note is there by then. Before that nothing is said."""
    call = ROOT + lookup(b"group") + lookup(b"x")
    for number, is_moved in enumerate((True, False)):
        home = f"{room}/home{number}"
        book, note = f"{home}/book.toml", f"{home}/had-book"
        server = Server(program, "--home", home)
        see("the status of CREATE", Session(server, 0x61, 0).status(2, ROOT + create_of(b"group", 0o770)), 0)
        bob = Session(server, 0x62, 1002)
        for _time in range(2):
            see("the status without a book, by the group that the call says", bob.status(3, call), 2)
        write_text(f"{book}.new", "this is no book\n")
        os.replace(f"{book}.new", book)
        see("the status where what comes is no book", bob.status(3, call), 2)
        see("the note where what comes is no book", os.path.exists(note), False)
        os.remove(book)
        see("the status where that is gone", bob.status(3, call), 2)
        path = f"{book}.new" if is_moved else book
        write_text(path, book_text("[]"))
        os.replace(path, book)
        see("the status by the book that has come", bob.status(3, call), 13)
        see("the note where a book has come", os.path.getsize(note) > 0, True)
        os.remove(book)
        see("the status where the book is gone", bob.status(3, call), 13)
        said = server_said(server)
        lines = ["nfsd: book 1; the book before stays\n", "nfsd: file; the book before stays\n", "nfsd: file; the book before stays\n"]
        see("what is said", said[::2], lines)
        starts_not(program, home, GONE)


def book_that_is_not_noted(program, room):
    """A book that comes where its note can't be written doesn't count, and that is said."""
    home = f"{room}/home"
    server = Server(program, "--home", home)
    see("the status of CREATE", Session(server, 0x61, 0).status(2, ROOT + create_of(b"group", 0o770)), 0)
    bob = Session(server, 0x62, 1002)
    os.mkdir(f"{home}/had-book")
    write_text(f"{home}/book.toml", book_text("[]"))
    for _time in range(2):
        see("the status by a book that isn't noted", bob.status(3, ROOT + lookup(b"group") + lookup(b"x")), 2)
    server.stop(f"nfsd: file; the book before stays\n{home}/book.toml: {UNNOTED}\n")


# A library that is loaded before the system's. It puts a program's clocks ahead by the seconds in a file: that of the day by the first number, and the one
# that only goes forward by the second. It calls the system by number (x86-64), since a program that is built with checks has a library of its own in between.
AHEAD = """
struct time { long seconds, nanoseconds; };
char *getenv(const char *);
long syscall(long, ...);
enum { READ = 0, CLOSE = 3, CLOCK_GETTIME = 228, OPENAT = 257, HERE = -100 };

int clock_gettime(int clock, struct time *time) {
    long status = syscall(CLOCK_GETTIME, clock, time), ahead[2] = {0, 0};
    long file = syscall(OPENAT, HERE, getenv("AHEAD"), 0);
    if (status == 0 && clock < 2 && syscall(READ, file, ahead, sizeof ahead) == sizeof ahead) time->seconds += ahead[clock];
    syscall(CLOSE, file);
    return status;
}
"""


class Clocks:
    """Clocks that can be set, of programs that have this environment."""

    def __init__(self, room):
        self.path = f"{room}/ahead"
        write_text(f"{self.path}.c", AHEAD)
        kit = os.path.dirname(os.path.dirname(os.path.realpath(shutil.which("rt"))))
        words = [f"{kit}/toolchain/bin/clang", "-shared", "-fPIC", "-nostdlib", "-fuse-ld=lld", "-o", f"{self.path}.so", f"{self.path}.c"]
        subprocess.run(words, timeout=PATIENCE, check=True)
        self.env = {**os.environ, "LD_PRELOAD": f"{self.path}.so", "AHEAD": self.path}

    def set(self, day, steady):
        """Sets the clock of the day, and the one that only goes forward, this far ahead of the system's."""
        with open(f"{self.path}.new", "wb") as it:
            it.write(struct.pack("=qq", day, steady))
        os.replace(f"{self.path}.new", self.path)


def started(home):
    """The second of the last start that the trail of a home has."""
    line = [it for it in lines_of(f"{home}/trail.txt") if it.endswith(" START\n")][-1]
    return calendar.timegm(time.strptime(line[:20], "%Y-%m-%dT%H:%M:%SZ"))


def alone(server, owner):
    """A client with a session, whose connection is closed: 41 are more than a server has places for."""
    it = Session(server, owner, 1001)
    it.peer.close()
    return it


def left(server, caller, callers):
    """How many of the callers still have their session, after many turns of the server. The other caller is heard before and after them, so it goes last."""
    caller.go_on(server)
    for _turn in range(60):
        see("the status of a call", caller.status(1, ROOT), 0)
    count = 0
    for each in callers:
        each.go_on(server)
        count += each.status(1, ROOT) == 0
        each.peer.close()
    see("the status of the last call", caller.status(1, ROOT), 0)
    return count


def leases_and_the_clock(program, room):
    """Where the clock of the day is set, a lease on or a day back, no client is let go for that, and none is kept. The most silent of 41 go until 32 are there,
    once the clock that only goes forward is a lease on. It is the same over a restart."""
    clocks = Clocks(room)
    for number, (day, is_stopped) in enumerate(((91, False), (-86400, False), (91, True), (-86400, True))):
        home = f"{room}/home{number}"
        clocks.set(0, 0)
        server = Server(program, "--home", home, env=clocks.env)
        *callers, caller = [alone(server, 0x21 + owner) for owner in range(41)]
        see("the sessions", left(server, caller, callers), 40)
        clocks.set(day, 0)
        if is_stopped:
            server.stop()
            server = Server(program, "--home", home, env=clocks.env)
            see("that the clock of the day was set", abs(started(home) - time.time() - day) < PATIENCE, True)
        see(f"the sessions where the clock of the day is {day} seconds ahead", left(server, caller, callers), 40)
        clocks.set(day, 91)
        see(f"the sessions a lease later, where the clock of the day is {day} seconds ahead", left(server, caller, callers), 31)
        server.stop()


SCENES = (home_without_its_book, book_that_comes_later, book_that_is_not_noted, leases_and_the_clock)
