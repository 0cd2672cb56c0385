"""Scenes of .ci/stored: one server at a time, preallocated bytes, limits of files, and full disks."""
import contextlib
import os
import resource
import subprocess

from stored_bytes import counting, files_of, frames_of, records_in
from stored_lab import (
    ATTRIBUTES, PATIENCE, ROOT, bitmap, free_port, Gone, held, hyper, opaque, Peer, refused, remove, see, Server, stop, words,
)

NO_SPACE = "No space left on device (os error 28)"
FULL = f"/tree.a: it can't be written: {NO_SPACE}"


def one_server(room, _):
    """A store that one program has is refused to others, and what changes nothing appends nothing."""
    folder = f"{room}/one"
    server = Server(folder)
    see("a second server", refused(folder), stop(folder, 1, ": another program has it"))
    peer = Peer(server, "makes")
    peer.make(b"", b"f", b"xyz")
    count = records_in(folder)
    for _ in range(5):
        peer.good(ROOT, words(9) + bitmap(ATTRIBUTES), words(15) + opaque(b"f"), words(25) + words(0, 0, 0, 0) + hyper(0) + words(100))
    see("records where nothing changes", records_in(folder) - count, 0)
    server.kill()
    for name in files_of(folder):
        path = f"{room}/./one/{name}"
        said = refused(folder, "--trail", path)
        see("a trail in the store", said, (f"nfsd: trail\n{path}: it is a file of the store\n", 1))


def home_refused(home):
    """What a server says that can't serve a home, and its status."""
    call = [Server.programs["nfsd"], "--port", str(free_port()), "--connections", "0", "--home", home]
    ran = subprocess.run(call, capture_output=True, text=True, timeout=PATIENCE, check=False)
    return ran.stderr, ran.returncode


def no_folder(room, _):
    """A folder that can't be made, or is none."""
    see("no parent", refused(f"{room}/no/folder"), stop(f"{room}/no/folder", 2, ": it can't be made: No such file or directory (os error 2)"))
    with open(f"{room}/file", "wb"):
        pass
    see("a file", refused(f"{room}/file"), stop(f"{room}/file", 2, ": it can't be opened: not a directory"))
    home = f"{room}/no/home"
    see("a home without a parent", home_refused(home), stop(home, 2, ": it can't be made: No such file or directory (os error 2)"))
    os.mkdir(f"{room}/earlier")
    with open(f"{room}/earlier/tree.key", "wb") as it:
        it.write(bytes(16))
    earlier = ": it was written by an earlier nfsd; bring it over with that program's `nfstore --export` and this one's `--import`"
    see("a store of an earlier form", refused(f"{room}/earlier"), stop(f"{room}/earlier", 3, earlier))
    see("what is beside its key", os.listdir(f"{room}/earlier"), ["tree.key"])


def ahead(room, _):
    """Zero bytes are written ahead of what is appended, in few steps. No file gets shorter."""
    folder = f"{room}/ahead"
    server = Server(folder)
    peer, sizes, steps = Peer(server, "makes"), [], []

    def look():
        content = counting(folder)
        end = frames_of(content)[-1].end
        see("what comes after the frames", any(content[end:]), False)
        sizes.append(len(content))
        steps.append(len(content) - end)
        return end

    # as much as the file has, and at least 65,536 bytes; the peer's client and session stand in it
    ends = [look()]
    see("the room after a small checkpoint", 64_000 < steps[0] <= 65_544, True)
    for number in range(50):
        peer.make(b"", b"%d" % number, bytes([number]) * 20_000)
        ends.append(look())
    see("each call is appended", all(one < other for one, other in zip(ends, ends[1:])), True)
    see("how often a file of a million bytes gets room", len(set(sizes)) in range(4, 9), True)
    see("no file gets shorter", sizes, sorted(sizes))
    see("the most room", max(steps) <= max(ends), True)
    server.kill()
    # a start goes on in the room that is there
    for _ in range(2):
        server = Server(folder)
        see("the bytes after a start", look(), ends[-1])
        server.kill()
    see("the room after a start", sizes[-2:], [sizes[-3]] * 2)
    see("the other file", os.path.getsize(f"{folder}/tree.b"), 0)


def fill(server, size):
    """Writes until the server goes; how many files were answered."""
    peer, count = Peer(server, "fills"), 0
    with contextlib.suppress(Gone):
        while True:
            peer.make(b"", b"%d" % count, bytes([count % 251]) * size)
            count += 1
    return count


def see_filled(folder, count, size, reader=None, gone=0):
    """All files that were answered are there, and at most one more. So many of them were removed, and at most one more.
    They are looked at by a client of before, or by a new one."""
    server = Server(folder)
    if reader:
        reader.go_on(server)
    seen = held(reader or Peer(server, "looks"), b"")
    for number in range(gone + (b"%d" % gone not in seen), count):
        see(f"file {number} of a disk that was full", seen[b"%d" % number], bytes([number % 251]) * size)
    see("files that were removed", [number for number in range(gone) if b"%d" % number in seen], [])
    see("no more than one more", len(seen) - (count - gone) in (-1, 0, 1), True)
    server.kill()


def limited(limit):
    return lambda: resource.setrlimit(resource.RLIMIT_FSIZE, (limit, limit))


def limits(room, _):
    """Where a file may not grow, nothing is answered that isn't kept, and the server says so and ends."""
    folder = f"{room}/limited"
    server = Server(folder, limited(300_000))
    count = fill(server, 20_000)
    see("some files were kept", count > 5, True)
    too_large = "/tree.a: it can't be written: file too large"
    server.ends(stop(folder, 2, too_large)[0])
    see_filled(folder, count, 20_000)
    files = files_of(folder)
    see("a start without room", refused(folder, first=limited(10_000)), stop(folder, 2, too_large))
    see("a store that is refused", files_of(folder), files)
    see_filled(folder, count, 20_000)
    return f"{count} files below a limit"


@contextlib.contextmanager
def small_disk(room):
    """A file system of 1 MiB, or None where none can be mounted."""
    place = f"{room}/disk"
    os.mkdir(place)
    mounted = subprocess.run(["mount", "-t", "tmpfs", "-o", "size=1m", "tmpfs", place], capture_output=True, check=False).returncode == 0
    try:
        yield place if mounted else None
    finally:
        if mounted:
            subprocess.run(["umount", "-l", place], check=False)


def remount(place, how):
    subprocess.run(["mount", "-o", f"remount,{how}", place], check=True)


def fill_up(path):
    """A file that takes what a disk has left."""
    it = os.open(path, os.O_CREAT | os.O_WRONLY | os.O_APPEND)
    with contextlib.suppress(OSError):
        while os.write(it, bytes(4096)):
            pass
    os.close(it)


def removed_on_full_disk(folder, count):
    """How many files can be removed, until the file that counts has no room for a record. A removal is one too."""
    server, removed = Server(folder), 0
    peer = Peer(server, "removes")
    with contextlib.suppress(Gone):
        while removed < count:
            peer.good(ROOT, remove(b"%d" % removed))
            removed += 1
        see("there is no end of the room for removals", removed < count, True)
    server.ends(stop(folder, 2, FULL)[0])
    return removed


def last_marks(folder):
    """Starts servers that nobody asks anything, until the file that counts has no room for a mark either. What the last one
    does: a start writes 64 zero bytes after the last frame, and a second later a mark."""
    for _ in range(20):
        server, said = Server.tried(folder)
        if server is None:
            see("a start where 64 bytes have no room", said, stop(folder, 2, FULL)[0])
            return "can't start"
        with contextlib.suppress(subprocess.TimeoutExpired):
            server.ran.wait(timeout=2.5)
            server.ends(stop(folder, 2, FULL)[0])
            return "ends within a second"
        server.kill()
    return "goes on"


def full_disk(room, _):
    """On a full disk nothing is answered that isn't kept. A server starts there by the spare of CURRENT, and reads. But each
    thing that is kept takes room in the file that counts: a new client, a removal, and the mark of a second in which nothing
    was asked. Once there is none for a mark, the server ends by itself, or can't start."""
    with small_disk(room) as place:
        if place is None:
            return "no disk could be mounted"
        folder = f"{place}/tree"
        server = Server(folder)
        reader = Peer(server, "reads")
        count = fill(server, 20_000)
        server.ends(stop(folder, 2, FULL)[0])
        fill_up(f"{place}/rest")
        see("a full disk", os.statvfs(place).f_bavail, 0)
        for _ in range(3):
            see_filled(folder, count, 20_000, reader)
        removed = removed_on_full_disk(folder, count)
        ends = last_marks(folder)
        os.remove(f"{folder}/CURRENT.spare")
        fill_up(f"{place}/rest")
        said, status = refused(folder)
        full = [stop(folder, 2, it) for it in (FULL, f"/CURRENT.new: it can't be written: {NO_SPACE}")]
        see("a start without a spare", (said, status) in full or said, True)
        remount(place, "size=64m")
        see_filled(folder, count, 20_000, None, removed)
        see("the spare is there again", os.path.getsize(f"{folder}/CURRENT.spare"), 64)
        remount(place, "ro")
        see("a disk that isn't written", refused(folder), stop(folder, 2, "/LOCK: it can't be opened: Read-only file system (os error 30)"))
        for path, said in ((f"{place}/new", refused(f"{place}/new")), (f"{place}/home", home_refused(f"{place}/home"))):
            see("a new folder there", said, stop(path, 2, ": it can't be made: Read-only file system (os error 30)"))
    return f"of {count} files on a full disk all are read and {removed} can be removed, and then a server {ends}"
