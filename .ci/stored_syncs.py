"""Scenes of .ci/stored: what is synced, and syncs that fail. They examine a server's system calls by strace."""
import contextlib
import os
import re
import shutil
import signal
import subprocess
import sys
import time

from stored_bits import close_by_another
from stored_bytes import content_of_file, counting, files_of, lay
from stored_lab import NFS_OK, PATIENCE, free_port, Gone, held, HomeServer, nfstore, Peer, picture, see, Server, stop

# a call of the system as strace says it: its name, the file or the first name that it is of, and what it gave
CALL = re.compile(r'\d+ +(?:\d+\.\d+ +)?(\w+)\((?:AT_FDCWD<[^>]*>, )?(?:\d+<([^>]*)>|"([^"]*)").*\) += (-?\d+)')
# the number of bytes and the place of a write
WRITTEN = re.compile(r", (\d+), (\d+)\) += ")


def traced(log, *how):
    return ["strace", "-f", "-y", "-qqq", "-o", log, *how]


def calls_in(log):
    """The calls of the system that a log has and that went well: each with its file, and its line."""
    for line in content_of_file(log).decode(errors="replace").splitlines():
        found = CALL.match(line)
        if found and int(found[4]) >= 0:
            yield found[1], found[2] or found[3], line


def new_home(room, _):
    """A home that is made is kept over a power loss: the folder that it stands in is synced, and so is the home itself."""
    if not shutil.which("strace"):
        return "no strace, so no sync was looked at"
    place, log = f"{room}/homes", f"{room}/log"
    os.mkdir(place)
    for name in ("new", "other/"):
        home = f"{place}/{name.rstrip('/')}"
        call = [Server.programs["nfsd"], "--home", name, "--port", str(free_port()), "--connections", "0"]
        under = traced(log, "-e", "trace=mkdir,mkdirat,fsync")
        ran = subprocess.run([*under, *call], cwd=place, capture_output=True, timeout=PATIENCE, check=False)
        see("a new home", (ran.stderr, ran.returncode), (b"", 0))
        done = [(call, os.path.normpath(os.path.join(place, path))) for call, path, _ in calls_in(log)]
        for made, within in ((home, place), (f"{home}/store", home)):
            at = next(number for number, (call, path) in enumerate(done) if call.startswith("mkdir") and path == made)
            see(f"the folder of {made} is synced after it was made", ("fsync", within) in done[at:], True)
    return None


def lines_synced(room, _):
    """The line of a start is synced within about a second, while nobody calls. Where it can't be synced the server ends."""
    if not shutil.which("strace"):
        return "no strace, so no sync was looked at"
    home, log = f"{room}/lines", f"{room}/lines.log"
    server = HomeServer(home, under=traced(log, "-ttt", "-e", "trace=write,fdatasync"))
    time.sleep(2.5)
    # strace goes on where it is ended by itself, and ends with the server
    for child in content_of_file(f"/proc/{server.ran.pid}/task/{server.ran.pid}/children").split():
        os.kill(int(child), signal.SIGTERM)
    server.ran.wait(timeout=PATIENCE)
    moments = {}
    for name, path, line in calls_in(log):
        if os.path.basename(path) == "trail.txt":
            moments.setdefault(name, []).append(float(re.match(r"\d+ +(\d+\.\d+)", line)[1]))
    see("how often a line was written, and synced", {name: len(found) for name, found in moments.items()}, {"write": 1, "fdatasync": 1})
    see("whether it was synced in time", 0 <= moments["fdatasync"][0] - moments["write"][0] < 1.5, True)
    how = ("-e", "trace=fdatasync", "-P", f"{home}/trail.txt", "-e", "inject=fdatasync:error=EIO")
    server = HomeServer(home, under=traced(log, *how))
    server.ends(f"nfsd: trail\n{home}/trail.txt: it can't be synced: Input/output error (os error 5)\n")
    return None


def asked_until_a_sync_fails(folder, server):
    """Calls a server whose sync fails: how many files were answered, and the bytes of the file that counts when all was synced."""
    peer, synced, answered = Peer.__new__(Peer), counting(folder), 0
    with contextlib.suppress(Gone):
        peer.begin(server, "makes")
        peer.client, sequence, _ = peer.exchange()
        synced = counting(folder)
        peer.create(sequence)
        synced = counting(folder)
        while True:
            peer.make(b"", b"f%d" % answered, b"x")
            answered += 1
            synced = counting(folder)
    server.ends(stop(folder, 2, "/tree.a: it can't be synced: Input/output error (os error 5)")[0])
    return answered, synced


def synced_by_start(folder, log, synced):
    """Starts a server whose syncs are fine. The bytes that are safe after its first sync of the file that counts, where these
    were. Nothing else of the store is written before that."""
    under = traced(log, "-e", "trace=pwrite64,fdatasync,rename", Server.programs["nfsd"])
    words_of = ["--port", str(free_port()), "--concurrent", "--connections", "0", "--store", folder]
    ran = subprocess.run([*under, *words_of], capture_output=True, timeout=PATIENCE, check=False)
    see("a start after a sync that failed", (ran.stderr, ran.returncode), (b"", 0))
    image, now, path = bytearray(synced), counting(folder), f"{folder}/tree.a"
    for name, file, line in calls_in(log):
        if (name, file) == ("fdatasync", path):
            return bytes(image)
        see("what is written before that", (name, file), ("pwrite64", path))
        count, at = map(int, WRITTEN.search(line).groups())
        image[at : at + count] = now[at : at + count]
    sys.exit("stored: a start doesn't sync what it goes on from")


def failed_sync(room, _):
    """A sync fails, and the server ends. What a start goes on from then may stand in memory alone, in pages that look clean.
    It is written again and synced before anything else, so that a power loss after it leaves all that was shown."""
    if not shutil.which("strace"):
        return "no strace, so no sync failed"
    log, safe = f"{room}/log", f"{room}/safe"
    for number in range(2, 8):
        folder = f"{room}/unsynced{number}"
        Server(folder).kill()
        how = ("-e", "trace=fdatasync", "-P", f"{folder}/tree.a", "-e", f"inject=fdatasync:error=EIO:when={number}")
        answered, synced = asked_until_a_sync_fails(folder, Server(folder, under=traced(log, *how)))
        image = synced_by_start(folder, log, synced)
        server = Server(folder)
        shown = picture(server)
        server.kill()
        server = Server(lay(safe, {**files_of(folder), "tree.a": image}))
        see("what a power loss leaves after the start", picture(server), shown)
        server.kill()
        see("what was answered", [it for it in range(answered) if b"/f%d" % it not in shown], [])
    return None


def failed_checkpoint(room, _):
    """A sync of a checkpoint fails, and the server ends. The call of it isn't answered, and all before it is there. The same
    call again is answered after a start."""
    if not shutil.which("strace"):
        return "no strace, so no sync failed"
    folder, log, failed = f"{room}/uncounted", f"{room}/log", 0
    server = Server(folder)
    peer, names = Peer(server, "makes"), []
    server.kill()
    for name, call, number in FAILING:
        see("a store is closed", nfstore(folder, "--close"), (b"", "", 0))
        close_by_another(folder)
        inject = ("-e", f"trace={call}", "-P", f"{folder}{name}", "-e", f"inject={call}:error=EIO:when={number}")
        server, said = Server.tried(folder, ("--connections", "1"), traced(log, *inject))
        names.append(b"f%d" % len(names))
        operations = peer.making(b"", names[-1], b"x")
        if server:
            peer.go_on(server)
            with contextlib.suppress(Gone):
                peer.good(*operations)
            peer.close()
            server.ran.wait(timeout=PATIENCE)
            said = server.ran.stderr.read()
        else:
            peer.number += 1
        if said:
            see(f"{call} {number} of {name} fails", bool(re.fullmatch(FAULT, said.removeprefix(f"nfsd: store 2\n{folder}"))) or said, True)
            failed += 1
        server = Server(folder)
        peer.go_on(server)
        see("the same call again", peer.status(peer.number, *operations), NFS_OK)
        see("what is there", sorted(held(peer, b"")), sorted(names))
        server.kill()
    see("how many syncs have failed", failed >= len(FAILING) // 2, True)
    return f"{failed} calls of the system that fail within a checkpoint"


# a call of the system on a part of a store that a checkpoint makes or syncs, and which of these fails
FAILING = (
    *(("/tree.b", "fdatasync", number) for number in (1, 2)),
    *(("/tree.a", "fdatasync", number) for number in (1, 2)),
    *(("/CURRENT.spare", "fdatasync", number) for number in (1, 2, 3)),
    *(("/CURRENT", "rename", number) for number in (1, 2, 3)),
    *(("", "fsync", number) for number in (1, 2, 3, 4)),
)
FAULT = re.compile(r"(?:/[\w.]+)?: it can't (?:be synced|become CURRENT): Input/output error \(os error 5\)\n")
