"""Scene of .ci/people: a trail that is followed while its server writes it, restarts, and has it put away."""
import os
import re
import signal
import subprocess
import threading
import time

from people_lab import PATIENCE, Lab, built, denied, read, see, write

# the most seconds until a line is printed
SOON = 2
# long enough for a line to be printed that isn't to be
LONG = 1
BOOK = """domain = "lab.example"
root_owner = 0
root_group = 0
root_mode = 0o755
users = { root = 0, bob = 1002, carol = 1003 }
groups = { staff = 100 }
"""
MOMENT = re.compile(r"^\d{4}-\d{2}-\d{2}T\d{2}:\d{2}:\d{2}Z +")
START = "the server started"


class Follower:
    """nfstrail --follow of a home, and the lines that it has printed, each when it came."""

    def __init__(self, tree, home, *words):
        self.words, self.lines = " ".join(words), []
        self.ran = subprocess.Popen([built(tree, "nfstrail"), home, "--follow", *words], stdout=subprocess.PIPE, stderr=subprocess.PIPE)
        self.seen = 0
        self.reader = threading.Thread(target=self.take, daemon=True)
        self.reader.start()

    def take(self):
        for line in self.ran.stdout:
            self.lines.append(line.decode(errors="surrogateescape"))

    def see(self, *wanted):
        """The next lines, without their moments, within the time; and none beside them."""
        Lab.count += 1
        until = time.monotonic() + SOON
        while len(self.lines) < self.seen + len(wanted) and time.monotonic() < until:
            time.sleep(0.01)
        new = [MOMENT.sub("", it).rstrip("\n") for it in self.lines[self.seen :]]
        see(f"what nfstrail --follow {self.words} prints within {SOON} seconds", new, list(wanted))
        self.seen += len(wanted)

    def see_none(self):
        time.sleep(LONG)
        self.see()

    def end(self, count):
        """Ends it by a signal, as any program, once it has printed this many lines. All that it has printed."""
        until = time.monotonic() + SOON
        while len(self.lines) < count and time.monotonic() < until:
            time.sleep(0.01)
        self.ran.send_signal(signal.SIGTERM)
        self.reader.join(timeout=PATIENCE)
        told = self.ran.stderr.read()
        see(f"how nfstrail --follow {self.words} ends", (told, self.ran.wait(timeout=PATIENCE)), (b"", -signal.SIGTERM))
        return "".join(self.lines)


def refused(lab, name, path):
    """A READ of this user is refused. The line that the trail gets, in words."""
    user = {"bob": 1002, "carol": 1003}[name]
    lab.see(user, ["cat", path], "refused READ ACCESS\n", denied(path))
    return f"{name} was refused READ of {path}: read-data, which entry 4 denies"


def restart(home, lab, number):
    """Ends the server of a home by a signal, and starts it again."""
    lab.server.send_signal(number)
    lab.server.wait(timeout=PATIENCE)
    call = [lab.programs["nfsd"], "--port", str(lab.port), "--home", home]
    lab.server = subprocess.Popen(call, stdout=subprocess.PIPE)
    see("what a server says first that starts again", lab.server.stdout.readline(), f"listening on 127.0.0.1:{lab.port}\n".encode())


def append(path, content):
    with open(path, "ab") as it:
        it.write(content)


def grows(tree, home, lab):
    """Lines come soon, with the paths of objects that are new; options choose; restarts lose none."""
    first = refused(lab, "carol", "/old")
    all_lines = Follower(tree, home)
    by_user, by_path, raw = (Follower(tree, home, *it) for it in (["--user", "carol"], ["--path", "/d"], ["--raw"]))
    try:
        all_lines.see(START, first)
        by_user.see(first)
        by_path.see()
        for at, number in enumerate((signal.SIGTERM, signal.SIGKILL)):
            lab.see(0, ["put", f"/d/new{at}", "secret"], "ok\n")
            new = refused(lab, "bob", f"/d/new{at}")
            all_lines.see(new)
            by_path.see(new)
            known = refused(lab, "carol", "/old")
            all_lines.see(known)
            by_user.see(known)
            before = [refused(lab, "bob", "/old") for _ in range(3)]
            restart(home, lab, number)
            after = refused(lab, "carol", f"/d/new{at}")
            all_lines.see(*before, START, after)
            by_user.see(after)
            by_path.see(after)
        whole = read(f"{home}/trail.txt")
        see("the whole trail, followed as it stands", raw.end(whole.count(b"\n")).encode(), whole)
        see("what is followed and what is printed at once", all_lines.end(0), lab.trail(home)[0])
        by_user.see()
        by_path.see()
    finally:
        for it in (all_lines, by_user, by_path, raw):
            it.ran.kill()


def put_away(tree, home, lab):
    """A file that is moved is read to its end, and then the next one; one that is cut is read from its beginning; an unended line waits."""
    trail = f"{home}/trail.txt"
    followers = [Follower(tree, home, "--since", "9000-01-01", *it) for it in ([], ["--raw"])]
    words, raw = followers
    try:
        words.see()
        append(trail, b"9001-01-01T00:00:00Z STA")
        words.see_none()
        append(trail, b"RT\nunended")
        words.see(START)
        words.see_none()
        os.rename(trail, f"{home}/away.txt")
        words.see_none()
        refused(lab, "carol", "/old")
        words.see("not ended: unended")
        append(trail, b"9002-01-01T00:00:00Z START\n")
        words.see(START)
        os.truncate(trail, 0)
        words.see_none()
        refused(lab, "carol", "/old")
        words.see_none()
        append(trail, b"9003-01-01T00:00:00Z START\n")
        words.see(START)
        wanted = "9001-01-01T00:00:00Z START\nunended\n9002-01-01T00:00:00Z START\n9003-01-01T00:00:00Z START\n"
        see("the files of a trail as they stand", raw.end(wanted.count("\n")), wanted)
        words.end(0)
    finally:
        for it in followers:
            it.ran.kill()


def goes(tree, home):
    """Once nobody reads the output it ends with 0 and without a word: while it waits, and while it writes more than a pipe holds."""
    for lines in (0, 10_000):
        append(f"{home}/trail.txt", b"9004-01-01T00:00:00Z START\n" * lines)
        reads, end = os.pipe()
        ran = subprocess.Popen([built(tree, "nfstrail"), home, "--follow"], stdout=end, stderr=subprocess.PIPE)
        os.close(end)
        see("what is read first", os.read(reads, 1) != b"", True)
        os.close(reads)
        try:
            see("nfstrail --follow that nobody reads", (ran.communicate(timeout=SOON)[1], ran.returncode), (b"", 0))
        finally:
            ran.kill()
        Lab.count += 1


def followed(tree, room):
    """Each of these over the trail of one home."""
    home = f"{room}/followed"
    os.mkdir(home)
    write(f"{home}/book.toml", BOOK.encode())
    lab = Lab(tree, "--home", home)
    try:
        lab.see(0, ["mkdir", "/d"], "ok\n")
        lab.see(0, ["chmod", "0755", "/d"], "ok\n")
        lab.see(0, ["put", "/old", "secret"], "ok\n")
        grows(tree, home, lab)
        put_away(tree, home, lab)
        goes(tree, home)
    finally:
        lab.stop()
