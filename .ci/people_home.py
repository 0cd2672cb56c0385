"""Scenes of .ci/people: the modes of a home and of the files that the server makes in it, and the line of --version."""
import os
import re
import subprocess
import sys
import time

from people_lab import PATIENCE, Lab, built, read, see, write

sys.path.insert(0, f"{os.path.dirname(os.path.dirname(os.path.abspath(__file__)))}/tools")
import recorded

BOOK = b'domain = "d"\nroot_owner = 0\nroot_group = 0\nroot_mode = 0o755\nusers = {}\ngroups = {}\n'
# what the programs of a tree report, whose commit isn't recorded
VERSION = "nfsd (Zoclesavory) 0.9, commit not recorded\n"


def modes_below(home):
    """The mode of a home, and the modes of each folder and file in it, by their paths. Not of metrics.prom, which each server makes anew by its umask."""
    paths = [home, *(f"{at}/{name}" for at, folders, files in os.walk(home) for name in folders + files if not name.startswith("metrics.prom"))]
    return {os.path.relpath(path, home): os.stat(path).st_mode & 0o7777 for path in paths}


def serve_once(tree, home, umask):
    """Starts a server over a home, and stops it."""
    before = os.umask(umask)
    try:
        lab = Lab(tree, "--home", home)
    finally:
        os.umask(before)
    lab.stop()


def private_homes(tree, room):
    """Folders that are made have mode 0700, and files 0600, whatever the umask. Those that are there keep their modes."""
    wanted = {".": 0o700, "store": 0o700, "trail.txt": 0o600, "had-book": 0o600}
    for umask in (0, 0o022, 0o027, 0o077):
        home = f"{room}/home{umask:o}"
        serve_once(tree, home, umask)
        write(f"{home}/book.toml", BOOK)
        os.chmod(f"{home}/book.toml", 0o644)
        serve_once(tree, home, umask)
        found = modes_below(home)
        see(f"the modes of a home by the umask {umask:o}", {path: found.get(path) for path in wanted}, wanted)
        see("the modes of its store", {mode for path, mode in found.items() if path.startswith("store/")}, {0o600})
        see("the mode of its book", found["book.toml"], 0o644)
    for path, mode in ((".", 0o750), ("store", 0o755), ("trail.txt", 0o640), ("had-book", 0o644)):
        os.chmod(f"{home}/{path}", mode)
    before = modes_below(home)
    serve_once(tree, home, 0)
    see("the modes of a home that is there", modes_below(home), before)


def ran_with(program, *words, stdout=subprocess.PIPE):
    """What a program prints on standard output and on standard error, and its status."""
    Lab.count += 1
    ran = subprocess.run([program, *words], stdout=stdout, stderr=subprocess.PIPE, text=True, timeout=PATIENCE, check=False)
    return ran.stdout, ran.stderr, ran.returncode


def versions(tree, room):
    """--version prints one line on standard output, and does nothing else."""
    program, home = built(tree, "nfsd"), f"{room}/version"
    for words in (["--version"], ["-V"], ["--home", home, "--version"], ["--bare", "--trail", home, "-V"]):
        see(f"nfsd {words}", ran_with(program, *words), (VERSION, "", 0))
    see("what it makes", os.path.exists(home), False)
    for name in ("nfstore", "nfstrail", "nfstat"):
        see(f"{name} --version", ran_with(built(tree, name), "--version"), (VERSION.replace("nfsd", name), "", 0))
    see("an option that isn't one", ran_with(program, "--versions")[::2], ("", 2))
    with open("/dev/full", "w", encoding="ascii") as full:
        wanted = (None, "nfsd: standard output: No space left on device (os error 28)\n", 1)
        see("a version that can't be printed", ran_with(program, "--version", stdout=full), wanted)


def numbers_for_people(tree, room):
    """nfstat prints the numbers of a home that is served, and says where there are none, or where they aren't whole or are old."""
    program, home = built(tree, "nfstat"), f"{room}/numbers"
    path = f"{home}/metrics.prom"
    lab = Lab(tree, "--home", home)
    lab.see(0, ("put", "/note", "12345"), "ok\n")
    lab.see(0, ("cat", "/note"), "12345\n")
    until = time.monotonic() + PATIENCE
    while b'operation="READ"' not in read(path):
        see("numbers in time", time.monotonic() < until, True)
        time.sleep(0.05)
    lab.stop()
    printed, complaint, status = ran_with(program, home)
    see("nfstat's complaint and status", (complaint, status), ("", 0))
    found = [line.split() for line in printed.splitlines()]
    for line in ("used limit percent", "connections 0 16 0", "objects 2 16,384 0", "bytes 5 none -", "READ OK 1", "WRITE OK 1", "bytes read 5", "bytes written 5", "full no"):
        see(f"a line of nfstat, {line}", line.split() in found, True)
    see("the last line of nfstat", re.fullmatch(r"up since +\d{4}-\d\d-\d\dT\d\d:\d\d:\d\dZ", printed.splitlines()[-1]) is not None, True)
    whole = read(path)
    write(path, whole[:-1])
    see("a text without its end", ran_with(program, home)[1:], (f"nfstat: {path}: its last line has no end; a server writes a whole one in its place\n", 1))
    write(path, whole.replace(b"zoclesavory_opens ", b"zoclesavory_open "))
    see("a text that lacks a number", ran_with(program, home)[1:], (f"nfstat: {path}: it has no number of zoclesavory_opens\n", 1))
    write(path, whole)
    os.utime(path, (1_000_000_000, 1_000_000_000))
    printed_old, complaint, status = ran_with(program, home)
    see("old numbers", (printed_old, re.sub(r"\d+ seconds", "N seconds", complaint), status), (printed, f"nfstat: {path}: it is N seconds old; the server may have stopped\n", 1))
    os.remove(path)
    see("no numbers", ran_with(program, home), ("", f"nfstat: {path}: there is no such file; only a server with --home writes it\n", 1))
    see("no words", ran_with(program)[::2], ("", 2))


def recorded_copies(_tree, _room):
    """A copy that ./install or ./try builds has the commit and the proof in its record. The work tree has neither, and the copy is removed."""
    for proof in ("proved", "not proved"):
        with recorded.copied(proof) as copy:
            with open(f"{copy}/{recorded.RECORD}", encoding="utf-8") as it:
                found = re.findall(r'RECORD: &str = "(.*)";', it.read())
            see("the record of a copy", found, [f"(Zoclesavory) 0.9, {recorded.commit()}, {proof}"])
            see("that a copy has no results of checks", os.path.exists(f"{copy}/crates/nfsd/out"), False)
        see("that the copy is removed", os.path.exists(copy), False)
    with open(f"{recorded.TOP}/{recorded.RECORD}", encoding="utf-8") as it:
        see("the record of the tree", it.read().count(recorded.UNRECORDED), 1)
