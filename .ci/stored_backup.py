"""Scenes of .ci/stored: what nfstore reads whole, and whole copies that it makes of homes and stores, also while a server writes them."""
import os
import re
import resource
import shutil
import signal
import subprocess
import time

from stored_bits import close_by_another, rotten, small_store
from stored_bytes import FRONT, content_of_file, counting, Current, files_of, frames_in, lay
from stored_copies import Call, stop_in_checkpoint
from stored_files import fill_up, remount, small_disk
from stored_lab import (
    FILE, PATIENCE, RANDOM, ROOT, four_writers, held, HomeServer, import_files, new_directory, nfstore, Peer, picture, see, Server,
)

# what is printed of a whole store and of a copy
WHOLE = re.compile(r"(.*): it is whole: generation (\d+), frames (\d+), records (\d+), entries (\d+), objects (\d+), bytes of files (\d+)\n")
MADE = re.compile(r"(.*): it is whole as of (\S+Z), when it began: objects (\d+), bytes of files (\d+)\n")
TAKEN = "it is there already; give the name of a folder that isn't"
BEGUN = "it is there already, of a backup that is being made or was broken off; remove it if none is being made"
NO_SPACE = "it can't be written: No space left on device (os error 28)"
BOOK = 'domain = "d"\nroot_owner = 0\nroot_group = 0\nroot_mode = 0o755\nusers = { bob = 1002 }\ngroups = {}\n'


def checked(folder):
    """What --check says of a folder: its generation, frames, records, entries, objects and bytes."""
    said, told, status = nfstore(folder, "--check")
    found = WHOLE.fullmatch(said.decode())
    see(f"--check of {folder}", (told, status, bool(found)), ("", 0, True))
    return found[1], tuple(map(int, found.groups()[1:]))


def copied(folder, copy, first=None):
    """Makes a copy: how many objects and bytes it has."""
    begun = time.strftime("%Y-%m-%dT%H:%M:%SZ", time.gmtime())
    words = [Server.programs["nfstore"], folder, "--backup", copy]
    ran = subprocess.run(words, capture_output=True, text=True, timeout=PATIENCE, preexec_fn=first, check=False)
    found = MADE.fullmatch(ran.stdout)
    see(f"--backup of {folder}", (ran.stderr, ran.returncode, bool(found)), ("", 0, True))
    ended = time.strftime("%Y-%m-%dT%H:%M:%SZ", time.gmtime())
    see("where it is, and of which moment", (found[1], begun <= found[2] <= ended or found[2]), (copy.rstrip("/"), True))
    see("the name that it had before", os.path.lexists(f"{copy.rstrip('/')}.new"), False)
    return int(found[3]), int(found[4])


def refused_copy(folder, copy, path, sentence, first=None, beside=None):
    """A copy that isn't made, for this reason. Nothing of it stays."""
    beside = beside or os.path.dirname(copy)
    names = sorted(os.listdir(beside))
    words = [Server.programs["nfstore"], folder, "--backup", copy]
    ran = subprocess.run(words, capture_output=True, text=True, timeout=PATIENCE, preexec_fn=first, check=False)
    see(f"--backup of {folder}", (ran.stdout, ran.stderr, ran.returncode), ("", f"nfstore: {path}: {sentence}\n", 1))
    see("what stands beside it", sorted(os.listdir(beside)), names)


def listed(folder):
    """What --tree prints of a store."""
    said, told, status = nfstore(folder, "--tree")
    see(f"--tree of {folder}", (told, status), ("", 0))
    return said


def all_in(folder):
    """Each path below a folder, with its mode and its bytes."""
    found = {}
    for at, names, files in os.walk(folder):
        for name in (*names, *files):
            path = f"{at}/{name}"
            found[path[len(folder):]] = (oct(os.lstat(path).st_mode), content_of_file(path) if name in files else None)
    return found


def sizes_of(shown):
    """How many objects a picture has, and how many bytes its files have."""
    objects = {handle: (facts, held) for handle, facts, held in shown.values()}
    # after the status of GETATTR, the bitmap and the length the type comes first
    files = [held for facts, held in objects.values() if facts[24:28] == FILE.to_bytes(4, "big")]
    return len(objects), sum(map(len, files))


def new_home(home):
    """A home with a book, objects and a refusal in its trail, which a server had. The picture of it, and a client of it."""
    os.mkdir(home, 0o700)
    with open(f"{home}/book.toml", "w", encoding="ascii") as it:
        it.write(BOOK)
    server = HomeServer(home)
    peer = Peer(server, "makes")
    for number in range(4):
        peer.good(ROOT, new_directory(b"%d" % number))
        peer.make(b"%d" % number, b"f", RANDOM.randbytes(7000 * number))
    see("a call that is refused", Peer(server, "asks", 1002).call(ROOT, new_directory(b"x")).status, 13)
    shown = picture(server)
    server.kill()
    return shown, peer


def see_store(store):
    """The files of a copied store: its log ends after its frames, and all else is empty."""
    files = files_of(store)
    current = Current.of(store)
    see("the files of a copied store", sorted(files), ["CURRENT", "LOCK", "tree.a", "tree.b"])
    see("the empty files", [files[name] for name in ("LOCK", f"tree.{'ba'[current.slot]}")], [b"", b""])
    see("the end of the log", counting(store)[frames_in(store)[-1].end:], bytes(64))


def backed_up(room, _):
    """A home that isn't served is copied whole and stays as it was. The copy shows the same, is served, and its sessions go on."""
    home, copy = f"{room}/backed up", f"{room}/backup"
    shown, peer = new_home(home)
    before = all_in(home)
    see("the objects and the bytes of a copy", copied(home, f"{copy}//"), sizes_of(shown))
    see("the home", all_in(home), before)
    after = all_in(copy)
    see("the files beside the store", [after[it][1] == before[it][1] for it in ("/had-book", "/trail.txt")], [True, True])
    see("the book", after["/book.toml"][1], BOOK.encode())
    see("the modes", {mode for mode, _ in after.values()}, {oct(0o040700), oct(0o100600)})
    see("the mode of the copy", oct(os.stat(copy).st_mode), oct(0o040700))
    see_store(f"{copy}/store")
    see("the paths", listed(f"{copy}/store"), listed(f"{home}/store"))
    (path, told), (other, also) = checked(home), checked(f"{copy}/store")
    see("a home and its copy are whole", (path, other, told), (f"{home}/store", f"{copy}/store", also))
    see("what a whole store has", told[4:], sizes_of(shown))
    server = HomeServer(copy)
    see("what is there after it", picture(server), shown)
    peer.go_on(server)
    peer.make(b"", b"later", b"x")
    server.kill()
    see("the home", all_in(home), before)
    alone = f"{room}/backup of a store"
    see("a store alone", copied(f"{home}/store", alone), sizes_of(shown))
    see_store(alone)
    see("a copy of a copy", (copied(alone, f"{alone} again"), files_of(f"{alone} again")), (sizes_of(shown), files_of(alone)))
    server = Server(alone)
    see("what is there after it", picture(server), shown)
    server.kill()


def limited(limit):
    return lambda: resource.setrlimit(resource.RLIMIT_FSIZE, (limit, limit))


def not_backed_up(room, _):
    """What can't be copied is told with its path, and nothing is left: a name that is taken, no store, damage, no room."""
    small, home, rest = small_store(room), f"{room}/not backed up", f"{room}/rest of backups"
    for place in (home, rest):
        os.mkdir(place)
    store = lay(f"{home}/store", small.marked)
    for name, make in (("file", lambda path: open(path, "wb").close()), ("folder", os.mkdir), ("link", lambda path: os.symlink("nowhere", path))):
        make(f"{rest}/{name}")
        refused_copy(home, f"{rest}/{name}", f"{rest}/{name}", TAKEN)
    os.mkdir(f"{rest}/half.new")
    refused_copy(home, f"{rest}/half", f"{rest}/half.new", BEGUN)
    refused_copy(home, f"{rest}/file/copy", f"{rest}/file/copy", "it can't be made: Not a directory (os error 20)", beside=rest)
    refused_copy(home, f"{rest}/none/copy", f"{rest}/none/copy.new", "it can't be made: No such file or directory (os error 2)", beside=rest)
    refused_copy(f"{rest}/nothing", f"{rest}/copy", f"{rest}/nothing", "it can't be opened: No such file or directory (os error 2)")
    refused_copy(f"{rest}/folder", f"{rest}/copy", f"{rest}/folder", "nothing is kept yet")
    refused_copy(home, f"{rest}/copy", f"{rest}/copy.new/store/{small.name}", "it can't be written: file too large", limited(100))
    os.mkfifo(f"{home}/book.toml")
    refused_copy(home, f"{rest}/copy", f"{home}/book.toml", "it isn't a regular file")
    os.remove(f"{home}/book.toml")
    for number in (0, 4, len(small.frames) - 2):
        content, at = small.marked[small.name], small.frames[number].at + FRONT - 8
        lay(store, {**small.marked, small.name: content[:at] + bytes([content[at] ^ 1]) + content[at + 1 :]})
        sentence = rotten(small.name, number, small.frames[number].at)
        see("damage", nfstore(home, "--check"), (b"", f"nfstore: {store}{sentence}\n", 1))
        refused_copy(home, f"{rest}/copy", f"{store}/{small.name}", sentence.split(": ", 1)[1])
    lay(store, {**small.marked, "CURRENT": small.marked["CURRENT"][:-1]})
    refused_copy(home, f"{rest}/copy", f"{store}/CURRENT", "it isn't whole")
    lay(store, {name: content for name, content in small.marked.items() if name != "CURRENT"})
    refused_copy(store, f"{rest}/copy", f"{store}/CURRENT", "it is missing")
    lay(store, small.marked)
    os.rename(f"{store}/tree.a", f"{store}/away")
    refused_copy(home, f"{rest}/copy", f"{store}/tree.a", "it is missing")
    os.symlink("away", f"{store}/tree.a")
    refused_copy(home, f"{rest}/copy", f"{store}/tree.a", "it isn't a regular file")
    see("two wishes", nfstore(home, "--check", "--backup", f"{rest}/copy")[2], 2)
    return full_disks(room)


def full_disks(room):
    """A disk that has no room for the copy, or can't be written."""
    folder, within = f"{room}/many bytes", f"{room}/of copies"
    import_files(room, folder, 40, 50_000)
    os.mkdir(within)
    with small_disk(within) as place:
        if place is None:
            return "no disk could be mounted"
        path = f"{place}/copy.new/{Current.of(folder).name()}"
        refused_copy(folder, f"{place}/copy", path, NO_SPACE)
        fill_up(f"{place}/rest")
        with open(f"{place}/rest", "r+b") as it:
            it.truncate(os.path.getsize(it.name) - 8192)
        refused_copy(folder, f"{place}/copy", path, NO_SPACE)
        remount(place, "ro")
        refused_copy(folder, f"{place}/copy", f"{place}/copy.new", "it can't be made: Read-only file system (os error 30)")
    return None


def held_in(tree, number):
    """The names and sizes that --tree has below the directory of this number."""
    found, front = {}, b"/%d/" % number
    for line in tree.splitlines():
        size, path = line.split(b" ", 6)[5:]
        if path.startswith(front):
            found[path[len(front):]] = int(size)
    return found


def see_written(tree, it, count):
    """What a copy has of a writer's directory is what stood after one of the calls since it was begun, or of the one that was under way."""
    states = [{name: len(content) for name, content in state.items()} for state in [*it.history[count:], it.maybe]]
    see("a copy has what was answered before", held_in(tree, it.number) in states or held_in(tree, it.number), True)


def backed_up_while_written(room, _):
    """A home is copied while clients write. Each copy is whole, and has what was answered before it was begun."""
    home, times = f"{room}/home that is written", 20
    server = HomeServer(home)
    writers = four_writers(server)
    copies = []
    for number in range(times):
        time.sleep(0.05)
        counts = [it.answered for it in writers]
        copied(home, f"{room}/copy {number}")
        copies.append((f"{room}/copy {number}", counts))
    see("the writers go on", all(it.is_alive() for it in writers), True)
    server.kill()
    for it in writers:
        it.ends()
    for number, (copy, counts) in enumerate(copies):
        see("a copy is whole", checked(copy)[0], f"{copy}/store")
        see_store(f"{copy}/store")
        tree = listed(f"{copy}/store")
        for it, count in zip(writers, counts):
            see_written(tree, it, count)
        if number % 7 == 0:
            see_served(copy, writers, counts)
    return f"{times} copies are whole, while {sum(it.answered for it in writers)} calls were answered"


def see_served(copy, writers, counts):
    """A server over a copy has the bytes too."""
    server = HomeServer(copy)
    peer = Peer(server, "looks")
    for it, count in zip(writers, counts):
        see("a copy has the bytes that were answered before", held(peer, b"%d" % it.number) in [*it.history[count:], it.maybe], True)
    server.kill()


def backed_up_meanwhile(room, _):
    """A store is copied while a checkpoint is half written, and again when it is done. Both copies are whole, and have what was answered."""
    folder, names, mids = f"{room}/checkpoint that is copied", [], 0
    made, peer = import_files(room, folder, 5, 80_000), Peer.__new__(Peer)
    for number in range(5):
        close_by_another(folder)
        before = Current.of(folder)
        server = Server(folder)
        call = Call(server, peer, number)
        call.start()
        mids += stop_in_checkpoint(server, folder, before)
        copied(folder, f"{folder} {number}")
        server.ran.send_signal(signal.SIGCONT)
        answered = [*made, *names]
        call.ends(names)
        copied(folder, f"{folder} {number} after")
        server.kill()
        for copy, wanted in ((f"{folder} {number}", answered), (f"{folder} {number} after", [*made, *names])):
            paths = [line.split(b" ", 6)[6][1:] for line in listed(copy).splitlines()]
            see("what was answered before", [it for it in wanted if it not in paths], [])
            see_store(copy)
        see("the generation that is copied", checked(f"{folder} {number} after")[1][0], before.generation + 1)
    return f"{mids} of 5 checkpoints were half written"


# how long a read is held up, in microseconds
DELAY = 1_500_000


def copied_late(folder, copy, at, change):
    """A copy whose read of this number is held up, while the folder is changed. What it says, and its status."""
    log, paths = f"{copy}.log", [word for name in ("CURRENT", "tree.a", "tree.b") for word in ("-P", f"{folder}/{name}")]
    under = ["strace", "-qqq", "-o", log, *paths, "-e", "trace=pread64", "-e", f"inject=pread64:delay_enter={DELAY}:when={at}"]
    words = [*under, Server.programs["nfstore"], folder, "--backup", copy]
    ran = subprocess.Popen(words, stdout=subprocess.PIPE, stderr=subprocess.PIPE, text=True)
    end = time.monotonic() + PATIENCE
    while time.monotonic() < end and (not os.path.exists(log) or content_of_file(log).count(b"\n") < at - 1):
        time.sleep(0.005)
    # until it is held up
    time.sleep(DELAY / 4e6)
    change()
    said, told = ran.communicate(timeout=PATIENCE)
    os.remove(log)
    return said, told, ran.returncode


def turn(folder, files):
    """Puts files into a folder, each as a whole."""
    for name, content in files.items():
        with open(f"{folder}/{name}.turn", "wb") as it:
            it.write(content)
        os.replace(f"{folder}/{name}.turn", f"{folder}/{name}")


def three_generations(room):
    """The files of a store with records, and of two generations later, each with an object more and no record. What --tree lists of these two."""
    small, folder = small_store(room), f"{room}/generations"
    lay(folder, small.marked)
    stages, trees = [small.marked], []
    for number in range(2):
        server = Server(folder)
        Peer(server, f"makes {number}").make(b"", b"of generation %d" % number, b"x")
        server.kill(signal.SIGTERM)
        see("a store is closed", nfstore(folder, "--close"), (b"", "", 0))
        stages.append(files_of(folder))
        trees.append(listed(folder))
    see("the same file counts two generations later", Current.of(folder).name(), small.name)
    return small, stages, trees


def backed_up_late(room, _):
    """CURRENT is replaced while a store is copied, and the file that it named is written over. All is read again, so nothing older is copied."""
    if not shutil.which("strace"):
        return "no strace, so nothing was held up"
    folder, (small, (first, second, third), (tree, last)) = f"{room}/late", three_generations(room)
    content = first[small.name]
    # the file of the first generation, whose last frames are written over
    cut = {**second, small.name: content[: small.frames[-2].at] + bytes(8) + bytes([1]) * 3000}
    for number, (files, wanted) in enumerate(((third, last), (second, tree), (cut, tree))):
        # the fourth read is of the CURRENT that was opened last: what is there then is of a moment after the copy began
        for at in (2, 3):
            lay(folder, first)
            copy = f"{room}/late copy {number} {at}"
            said, told, status = copied_late(folder, copy, at, lambda files=files: turn(folder, files))
            see(f"a copy whose read {at} is held up", (bool(MADE.fullmatch(said)), told, status), (True, "", 0))
            see("it has what stands at the end", listed(copy), wanted)
    return None
