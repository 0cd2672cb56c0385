"""Scenes of .ci/stored: foreign files, corruption, blocks in a wrong place, renamed files, and links."""
import os
import struct
import time

from stored_bits import rotten, side_by_side, small_store, wanted
from stored_bytes import END, FILES, content_of_file, Current, files_of, frames_of, lay
from stored_lab import GETFH, RANDOM, ROOT, import_files, names_in_root, nfstore, Peer, refused, see, Server, stop

SECTOR = 512
# the seconds within which damage of several MB is told
# two seconds on a machine that has nothing else to do
SOON = 8


def foreign_files(room, _):
    """Files of another store that are copied over those of a store are told, and nothing is overwritten."""
    small, other = small_store(room), f"{room}/foreign"
    Server(other).kill()
    theirs, folder = files_of(other), f"{room}/foreign copy"
    everything = small.last(len(small.frames))

    def see_laid(what, names, sentence):
        files = {**small.marked, **{name: theirs[name] for name in names}}
        small.see(f"{what} of another store", folder, "LOCK", files["LOCK"], files, sentence)

    see_laid("LOCK", ["LOCK"], everything)
    see_laid("CURRENT", ["CURRENT"], rotten("tree.a", 0, 0))
    see_laid("LOCK and CURRENT", ["LOCK", "CURRENT", "CURRENT.spare"], rotten("tree.a", 0, 0))
    see_laid("tree.b", ["tree.b"], rotten("tree.b", 0, 0))
    see_laid("CURRENT and tree.b", ["CURRENT", "tree.b"], rotten("tree.a", 0, 0))
    see_laid("the file that doesn't count", ["tree.a"], everything)
    return first_start(small, other, folder)


def first_start(small, other, folder):
    """CURRENT of a store whose first start was cut off names no file, and none is looked at. So it isn't told today where it
    is copied over that of a store: the first checkpoint is written again, over a file that had another one."""
    current = Current.of(other)._replace(generation=0, begun=1)
    server, said = Server.tried(lay(folder, {**small.marked, "CURRENT": current.content()}))
    if server is None:
        see("CURRENT of a first start that was cut off", said.startswith(f"nfsd: store 4\n{folder}/"), True)
        return "CURRENT of a first start that was cut off is told"
    server.kill()
    return "but CURRENT of a first start that was cut off isn't told"


def rot_of_the_end(room, _):
    """After a mark a rotten sector of the log is told. It isn't where it has the mark and all that comes after it, or where
    a frame begins with it and it became zero: that looks like the end of a log. So does a file that was cut in its log."""
    small, untold, jobs = small_store(room), [], []
    whole, end = small.marked[small.name], small.frames[-1].end
    for at in range(0, end, SECTOR):
        for what, sector in (("zero", bytes(SECTOR)), ("full of ones", b"\xff" * SECTOR), ("other bytes", RANDOM.randbytes(SECTOR))):
            jobs.append((f"a sector of {what} at {at}", whole[:at] + sector + whole[at + SECTOR :], at))
    for number in range(30):
        at = end * number // 30
        jobs.append((f"a file that was cut at {at}", whole[:at], at))
        jobs.append((f"a file that is zero from {at} on", whole[:at] + bytes(len(whole) - at), at))
    everything = small.last(len(small.frames))

    def do(folder, what, content, at):
        then = wanted(small, small.frames, content)
        small.see(what, folder, small.name, content, small.marked, then)
        if then not in (everything, None) and not isinstance(then, str):
            untold.append((what, at))

    side_by_side(jobs, do, room)
    see("a sector in front of the mark is told", [what for what, at in untold if "sector" in what and at + SECTOR <= small.frames[-1].at], [])
    return f"of {len(jobs)} changes of a log with a mark {len(untold)} aren't told: {sum('sector' in what for what, _ in untold)} of its last sector, and cuts"


def rot_of_a_checkpoint(room, _):
    """A checkpoint that was just written and rots is told. The older one doesn't count then."""
    small, jobs = small_store(room), []
    written = next(number for number, it in enumerate(small.frames) if it.kind == END) + 1
    whole = small.marked[small.name][: small.frames[written - 1].end] + bytes(700)
    # tree.a has a whole checkpoint of the generation before
    see("the older file", [it.kind for it in frames_of(small.marked["tree.a"])][-1], END)
    for number, it in enumerate(small.frames[:written]):
        for at in (it.at, it.at + 7, it.at + 60, it.end - 1):
            for change in (1, 128, 255):
                content = whole[:at] + bytes([whole[at] ^ change]) + whole[at + 1 :]
                jobs.append((f"byte {at} changed", content, rotten(small.name, number, it.at)))
        jobs.append((f"frame {number} lost", whole[: it.at] + bytes(it.end - it.at) + whole[it.end :], rotten(small.name, number, it.at)))
        jobs.append((f"cut at frame {number}", whole[: it.at], rotten(small.name, number, it.at)))
    jobs.append(("nothing there", b"", rotten(small.name, 0, 0)))
    jobs.append(("all zero", bytes(len(whole)), rotten(small.name, 0, 0)))

    def do(folder, what, content, sentence):
        small.see(what, folder, small.name, content, small.marked, sentence)

    side_by_side(jobs, do, room)
    return f"{len(jobs)} changes of a checkpoint are told"


def blocks_of_the_other_file(room, _):
    """Blocks of one file that stand in the other one are told, but for the end of a log with its mark. Nothing is lost: the
    store goes on once its own bytes are there again."""
    small, jobs = small_store(room), []
    whole, other = small.marked[small.name], small.marked["tree.a"]
    end = small.frames[-1].end
    for size in (SECTOR, 4096):
        for at in range(0, end, size):
            for source in range(0, len(frames_bytes(other)), size):
                block = other[source : source + size].ljust(size, b"\0")
                jobs.append((f"{size} bytes of tree.a from {source} at {at}", whole[:at] + block + whole[at + size :]))
    everything = small.last(len(small.frames))

    def do(folder, what, content):
        then = wanted(small, small.frames, content)
        small.see(what, folder, small.name, content, small.marked, then)
        if isinstance(then, str):
            small.see(f"{what}, and put right", folder, small.name, whole, small.marked, everything)

    side_by_side(jobs, do, room)
    files = {**small.marked, "tree.a": whole, "tree.b": other}
    small.see("both files in each other's place", f"{room}/lane0", "LOCK", b"", files, rotten("tree.b", 0, 0))
    return f"{len(jobs)} blocks of the other file"


def frames_bytes(content):
    return content[: frames_of(content)[-1].end]


def restored_beside_a_server(room, _):
    """Files that are renamed into place while a server runs, LOCK too, let no second server in, and the first one goes on."""
    folder = f"{room}/restored"
    server = Server(folder)
    peer = Peer(server, "makes")
    peer.make(b"", b"before", b"1")
    backup = files_of(folder)
    peer.make(b"", b"after", b"2")
    for name in ("CURRENT", "CURRENT.spare", "tree.a", "tree.b"):
        with open(f"{room}/put", "wb") as it:
            it.write(backup[name])
        os.rename(f"{room}/put", f"{folder}/{name}")
        see(f"a second server, after {name}", refused(folder), stop(folder, 1, ": another program has it"))
        peer.good(ROOT, GETFH)
    server.kill()
    other = Server(folder)
    see("the backup", sorted(names_in_root(other)), [b"before"])
    with open(f"{room}/put", "wb"):
        os.rename(f"{room}/put", f"{folder}/LOCK")
    see("a second server beside another LOCK", refused(folder), stop(folder, 1, ": another program has it"))
    other.kill()


def links(room, _):
    """A link in place of a file is told, and nothing is written through it."""
    small, folder, away = small_store(room), f"{room}/linked", f"{room}/away"
    not_regular, linked = "it isn't a regular file", "the file has a second name (a hard link)"
    for name in ("LOCK", "CURRENT", *FILES):
        other = f"{folder}/{FILES[name == FILES[0]]}"
        for make, to, sentence in (
            (os.symlink, away, not_regular),
            (os.symlink, f"{room}/nothing", not_regular),
            (os.symlink, other, not_regular),
            (os.link, away, linked),
            (os.link, other, linked),
        ):
            lay(folder, small.marked)
            os.rename(f"{folder}/{name}", away)
            make(to, f"{folder}/{name}")
            # of two names of a file that which is looked at first is named
            first = FILES[0] if make is os.link and to == other and name in FILES else name
            see(f"{name} as a link to {to}", refused(folder), stop(folder, 4, f"/{first}: {sentence}"))
            see("what is beside a link", {it: content_of_file(f"{folder}/{it}") for it in small.marked if it != name}, without(small.marked, name))
            see("what a link leads to", content_of_file(away), small.marked[name])
            os.remove(away)


def without(files, name):
    return {it: content for it, content in files.items() if it != name}


def told_soon(room, _):
    """A byte that is turned in a store of several MB is told within seconds, also where its bytes look like frames."""
    folder, place = f"{room}/large", f"{room}/large copy"
    import_files(room, folder, 4, 400_000)
    server = Server(folder)
    peer, generation = Peer(server, "makes"), Current.of(folder).generation
    like_frames = struct.pack(">2Q", 3, generation) * 3_700
    for number in range(40):
        peer.make(b"", b"n%d" % number, like_frames)
    server.kill()
    files, name, slowest = files_of(folder), Current.of(folder).name(), 0.0
    frames = frames_of(files[name])
    see("its bytes", frames[-1].end > 3_600_000, True)
    for it in (frames[1], frames[5], *frames[-40:-1:13], frames[-2]):
        at = (it.at + it.end) // 2
        lay(place, {**files, name: files[name][:at] + bytes([files[name][at] ^ 4]) + files[name][at + 1 :]})
        begun = time.monotonic()
        see("a byte that was turned", refused(place), stop(place, 4, rotten(name, it.number, it.at)))
        slowest, begun = max(slowest, time.monotonic() - begun), time.monotonic()
        see("nfstore", nfstore(place), (b"", f"nfstore: {place}{rotten(name, it.number, it.at)}\n", 1))
        slowest = max(slowest, time.monotonic() - begun)
    lay(place, files)
    begun = time.monotonic()
    see("the store as it is", refused(place), ("", 0))
    whole = time.monotonic() - begun
    see(f"a turned byte of {frames[-1].end} bytes is told within {SOON} seconds, as a whole start takes {whole:.1f}", slowest < SOON or slowest, True)
    return f"a turned byte of {frames[-1].end} bytes is told within {slowest:.1f} seconds, and a whole start takes {whole:.1f}"
