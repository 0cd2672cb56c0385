"""Scenes of .ci/stored: what nfstore prints about a store, what it imports and what it exports."""
import fcntl
import os
import signal

from stored_bits import rotten, small_store
from stored_bytes import END, RECORD, Current, files_of, frames_in, lay
from stored_lab import NFS_OK, nfsc, nfstore, Peer, picture, refused, see, Server, stop, summary, there, write


def looked_at(room, _):
    """What nfstore says of a store: what counts and stands, each path, and damage, which it leaves."""
    small, folder = small_store(room), f"{room}/looked at"
    lay(folder, small.marked)
    told, count = summary(folder), sum(it.kind == RECORD for it in small.frames)
    names = ("file", "generation", "frames", "records", "torn", "objects", "names", "clients", "sessions")
    shown = len(small.last(len(small.frames)))
    wanted = ["tree.b", "2", str(len(small.frames)), str(count), "0", str(shown), str(shown - 1), "1", "1"]
    see("what nfstore says", [told[it] for it in names], wanted)
    see("how many paths it lists", nfstore(folder, "--tree")[0].count(b"\n"), shown)
    see("how many calls it lists", nfstore(folder, "--calls")[0].count(b"\n"), int(told["entries"]))
    last = small.current.frame(small.frames[-1], RECORD, b"abcd")[:-8]
    lay(folder, {**small.marked, small.name: small.marked[small.name][: small.frames[-1].end] + last + bytes(700)})
    see("what a crash tore", (summary(folder)["records"], summary(folder)["torn"]), (str(count), str(len(last))))
    for number in (0, 4, len(small.frames) - 2):
        content, at = small.marked[small.name], small.frames[number].at
        files = {**small.marked, small.name: content[: at + 60] + bytes([content[at + 60] ^ 1]) + content[at + 61 :]}
        lay(folder, files)
        see("damage", nfstore(folder), (b"", f"nfstore: {folder}{rotten(small.name, number, at)}\n", 1))
        see("damage", nfstore(folder, "--tree"), (b"", f"nfstore: {folder}{rotten(small.name, number, at)}\n", 1))
        see("what nfstore leaves", files_of(folder), files)
    os.mkdir(f"{room}/nothing here")
    see("no store", nfstore(f"{room}/nothing here"), (b"", f"nfstore: {room}/nothing here/LOCK: it can't be opened: entity not found\n", 1))
    see("nothing was made", os.listdir(f"{room}/nothing here"), [])


def looked_at_beside(room, _):
    """nfstore and a server have a store one after the other, and several nfstore may read it."""
    folder = f"{room}/beside"
    server = Server(folder)
    nfsc(server, "mkdir", "/docs")
    nfsc(server, "put", "/docs/two\nlines", "x")
    see("nfstore beside a server", nfstore(folder), (b"", f"nfstore: {folder}: another program has it\n", 1))
    see("--close beside a server", nfstore(folder, "--close"), (b"", f"nfstore: {folder}: another program has it\n", 1))
    server.kill()
    with open(f"{folder}/LOCK", "rb") as it:
        fcntl.flock(it, fcntl.LOCK_SH)
        see("a server beside nfstore", refused(folder), stop(folder, 1, ": another program has it"))
        see("nfstore beside nfstore", nfstore(folder)[2], 0)
    see("a name with a newline", nfstore(folder, "--tree")[0].splitlines()[-1].endswith(b" /docs/two\\x0alines"), True)


def closed(room, _):
    """A store that is closed has no records, and shows the same. A program of another version could go on then."""
    folder = f"{room}/closed"
    server = Server(folder)
    peer = Peer(server, "makes")
    for number in range(3):
        peer.make(b"", b"f%d" % number, b"y" * 3000)
        stateid = peer.open(b"f%d" % number)
        shown = picture(server)
        server.kill(signal.SIGTERM)
        before = Current.of(folder)
        see("a store is closed", nfstore(folder, "--close"), (b"", "", 0))
        after = Current.of(folder)
        see("which file counts", (after.generation, after.slot), (before.generation + 1, 1 - before.slot))
        see("its last frame", frames_in(folder)[-1].kind, END)
        files = files_of(folder)
        see("a store that is closed already", (nfstore(folder, "--close"), files_of(folder)), ((b"", "", 0), files))
        server = Server(folder)
        see("what is there after it", picture(server), shown)
        peer.go_on(server)
        see("an open of before", peer.call(*there(b"f%d" % number), write(stateid, b"new")).status, NFS_OK)
    server.kill()


def lines_of(folder):
    """What `nfstore --tree` has to list of a directory of this system, but for the numbers, in an order of its own."""
    lines = []
    for at, names, files in os.walk(folder):
        for name in (*([""] if at == folder else []), *names, *files):
            path = os.path.join(at, name) if name else folder
            it = os.lstat(path)
            kind, size = {0o10: ("file", it.st_size), 0o4: ("directory", 0), 0o12: ("link", it.st_size)}[it.st_mode >> 12]
            mode = 0o777 if kind == "link" else it.st_mode & 0o7777
            shown = (path[len(folder):] or "/").replace("\n", "\\x0a")
            lines.append(f"{kind} {mode:04o} {it.st_uid} {it.st_gid} {size} {shown}")
    return sorted(lines)


def listed(folder):
    return sorted(line.split(" ", 1)[1] for line in nfstore(folder, "--tree")[0].decode().splitlines())


def source(place):
    """A directory of this system with what a tree can have."""
    os.makedirs(f"{place}/docs/deep/er")
    os.mkdir(f"{place}/empty")
    for name, content in (("plan", b"abc" * 30_000), ("docs/é", b""), ("docs/two\nlines", b"x"), ("docs/deep/er/f", b"\0\xff")):
        with open(f"{place}/{name}", "wb") as it:
            it.write(content)
    os.link(f"{place}/plan", f"{place}/docs/deep/second")
    os.symlink("../plan", f"{place}/docs/way")
    os.chmod(f"{place}/plan", 0o4755)
    os.chmod(f"{place}/docs", 0o2770)
    os.chmod(f"{place}/empty", 0o1777)
    if os.geteuid() == 0:
        os.chown(f"{place}/plan", 1001, 100)
        os.chmod(f"{place}/plan", 0o4755)


def in_and_out(room, _):
    """A directory of this system becomes a store, which is served, and comes out again as it was. What no tree takes is
    said before anything is made."""
    place, folder, out = f"{room}/source", f"{room}/made", f"{room}/out"
    source(place)
    see("an import", nfstore(folder, "--import", place), (b"", "", 0))
    # a link has the mode 0777 on this system, and the one that the server gives it
    see("what is imported", [line for line in listed(folder) if not line.startswith("link")], [line for line in lines_of(place) if not line.startswith("link")])
    server = Server(folder)
    seen = picture(server)
    see("bytes that were imported", [seen[path.encode()][2] for path in ("/plan", "/docs/two\nlines", "/docs/deep/er/f")], [b"abc" * 30_000, b"x", b"\0\xff"])
    see("two names of a file", seen[b"/plan"][0], seen[b"/docs/deep/second"][0])
    nfsc(server, "put", "/new", "made later")
    nfsc(server, "rm", "/new")
    server.kill()
    files = files_of(folder)
    see("a second import", nfstore(folder, "--import", place), (b"", f"nfstore: {folder}: it has a store\n", 1))
    see("a store that is refused", files_of(folder), files)
    see("an export", nfstore(folder, "--export", out), (b"", "", 0))
    see("what is exported", lines_of(f"{out}/tree"), lines_of(place))
    see("bytes that are exported", open(f"{out}/tree/docs/deep/second", "rb").read(), b"abc" * 30_000)
    see("two names of a file", os.path.samefile(f"{out}/tree/plan", f"{out}/tree/docs/deep/second"), True)
    see("a link's text", os.readlink(f"{out}/tree/docs/way"), "../plan")
    with open(f"{out}/acl.txt", encoding="utf-8") as it:
        lists = it.read().split("\n\n")
    see("the paths of the lists", sorted(text.split("\n")[0] for text in lists if text), sorted("# " + line.split(" ", 5)[5] for line in lines_of(place)))
    see("each list has entries", all(len(text.split("\n")) > 4 for text in lists if text), True)
    see("an export to what is there", nfstore(folder, "--export", out)[2], 1)
    os.mkfifo(f"{place}/docs/pipe")
    with open(f"{place}/large", "wb") as it:
        it.truncate(1_048_577)
    os.symlink("t" * 1025, f"{place}/long")
    said = sorted(nfstore(f"{room}/unmade", "--import", place)[1].splitlines())
    wanted = ["docs/pipe: it is no file, directory or symbolic link", "large: it has more than 1048576 bytes", "long: its text has more than 1024 bytes"]
    see("what isn't taken", said, [f"nfstore: {place}/{line}" for line in wanted])
    see("nothing is made", os.path.exists(f"{room}/unmade"), False)
    see("two wishes", nfstore(folder, "--tree", "--export", out)[2], 2)
