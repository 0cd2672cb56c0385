"""Scenes of .ci/stored: each length and many bits of a small store, and frames of another program."""
import concurrent.futures
import re
import time

from stored_bytes import END, MARK, PART, RECORD, Current, files_of, frames_in, frames_of, lay
from stored_lab import PATIENCE, RANDOM, ROOT, new_directory, Peer, picture, refused, remove, see, Server, stop

# how many stores are tried at a time
LANES = 2
ROTTEN = re.compile(r"/(tree\.[ab]): (\d+) frames stand, and what was safe at byte (\d+) is damaged")
NOT_WHOLE = "/CURRENT: it isn't whole"

# what is said of the records of another program
ANOTHER_MACHINE = (
    ": its records are of version 7, which isn't known; `nfstore FOLDER --close` of the program that wrote them makes them a checkpoint"
)


def rotten(name, frames, byte):
    return f"/{name}: {frames} frames stand, and what was safe at byte {byte} is damaged"


def write_current(folder, current):
    with open(f"{folder}/CURRENT", "wb") as it:
        it.write(current.content())


def close_by_another(folder):
    """Makes a store without records one that a program of another version closed. The next record begins a checkpoint."""
    current = Current.of(folder)
    see("a store without records", [it for it in frames_in(folder) if it.kind == RECORD], [])
    write_current(folder, current._replace(machine=current.machine + 1))


def wait_for_mark(folder):
    """Until the last frame is a mark."""
    end = time.monotonic() + PATIENCE
    while frames_in(folder)[-1].kind != MARK:
        see("a mark comes after a second without a record", time.monotonic() < end, True)
        time.sleep(0.05)


class Small:
    """A small store in whose files each byte is known: its files with and without a mark at the end, and what it showed
    after each of its records."""

    def __init__(self, room):
        self.folder, self.copy, self.shown = f"{room}/small", f"{room}/small copy", {}
        Server(self.folder).kill()
        close_by_another(self.folder)
        self.server = Server(self.folder)
        peer = Peer(self.server, "makes")
        self.note()
        for number in range(2):
            for name in (b"f%d0" % number, b"f%d1" % number):
                peer.make(b"", name, b"bytes" * 9)
                self.note()
            peer.good(ROOT, new_directory(b"d%d" % number))
            self.note()
            peer.good(ROOT, remove(b"f%d0" % number))
            self.note()
        self.unmarked = files_of(self.folder)
        wait_for_mark(self.folder)
        self.server.kill()
        self.marked = files_of(self.folder)
        self.current = Current.of(self.folder)
        self.name = self.current.name()
        self.frames = frames_of(self.marked[self.name])
        see("the file that counts", (self.name, self.current.generation), ("tree.b", 2))
        see("its frames", [it.kind for it in self.frames[-3:]], [RECORD, RECORD, MARK])

    def note(self):
        """Notes what is shown after so many frames."""
        lay(self.copy, files_of(self.folder))
        count = len(frames_in(self.copy))
        server = Server(self.copy)
        self.shown[count] = picture(server)
        server.kill()

    def last(self, count):
        """What is shown where so many frames stand, all of a checkpoint of a root alone among them."""
        return self.shown[max((it for it in self.shown if it <= count), default=min(self.shown))]

    def see(self, what, folder, name, content, files, wanted):
        """A store with these bytes in a file shows this, or is refused by this sentence and left as it is."""
        changed = {**files, name: content}
        server, said = Server.tried(lay(folder, changed))
        if server is None:
            see(what, said, isinstance(wanted, str) and stop(folder, 4, wanted)[0])
            see(f"a store that is refused: {what}", files_of(folder), changed)
            return
        seen = picture(server)
        server.kill()
        see(what, seen == wanted or wanted, True)


def side_by_side(tries, do, room):
    """Does something for each of these, in folders of its own."""
    def lane(number):
        for it in tries[number::LANES]:
            do(f"{room}/lane{number}", *it)

    with concurrent.futures.ThreadPoolExecutor(LANES) as pool:
        for it in [pool.submit(lane, number) for number in range(LANES)]:
            it.result()


def wanted(small, frames, content):
    """What a store shows whose counting file has these bytes, where it had these frames; or by which sentence it is refused.
    Only bytes that were written there fit (docs/store-journal.md)."""
    whole = small.marked[small.name]
    count = 0
    while count < len(frames) and content[: frames[count].end] == whole[: frames[count].end]:
        count += 1
    end = frames[count - 1].end if count else 0
    refusal = rotten(small.name, count, end)
    if not any(it.kind == END for it in frames[:count]):
        return refusal
    rest = content[end:]
    if rest[:8] == bytes(8):
        return small.last(count)
    # a head that was written after the next frame stands at a multiple of four bytes
    heads = [whole[it.at : it.at + 64] for it in frames[count + 1 :]]
    if any(rest[at : at + 64] in heads for at in range(0, len(rest), 4) if rest[at : at + 8] == whole[:8]):
        return refusal
    return small.last(count)


def changes_of(content, end, tries):
    """Changes of a file whose frames end there, each with what was done."""
    for number in range(tries):
        place, bit = RANDOM.randrange(end + 16), RANDOM.randrange(8)
        yield f"bit {bit} of byte {place} turned", content[:place] + bytes([content[place] ^ 1 << bit]) + content[place + 1 :]
    for _ in range(tries // 10):
        at, room = RANDOM.randrange(end), bytes(RANDOM.randrange(1, 3000))
        torn = content[:at] + RANDOM.randbytes(RANDOM.randrange(90))
        yield f"cut at {at}", content[:at]
        yield f"torn at {at}", torn
        yield f"torn at {at} in front of room", torn + room
        yield f"room from {at} on", content[:at] + room
        yield f"512 bytes zero from {at} on", content[:at] + bytes(512) + content[at + 512 :]


def turned(room, kills):
    """Bits of a small store are turned, and its files cut, torn and filled: what a start shows is exactly what the page of
    the journal says, and what it refuses it leaves. A bit that is turned before a mark is told."""
    small, tries = small_store(room), 10 * kills
    counts = {"shown": 0, "refused": 0}
    jobs = []
    for files, frames in ((small.marked, small.frames), (small.unmarked, small.frames[:-1])):
        for what, content in changes_of(files[small.name], frames[-1].end, tries // 2):
            jobs.append((f"{small.name}, {what}", small.name, content, files, wanted(small, frames, content)))
    everything = small.last(len(small.frames))
    for what, content in changes_of(small.marked["tree.a"], 700, tries // 10):
        jobs.append((f"tree.a, {what}", "tree.a", content, small.marked, everything))
    current = small.marked["CURRENT"]
    for _ in range(tries // 10):
        place, bit = RANDOM.randrange(64), RANDOM.randrange(8)
        turned_there = current[:place] + bytes([current[place] ^ 1 << bit]) + current[place + 1 :]
        jobs.append((f"bit {bit} of byte {place} of CURRENT", "CURRENT", turned_there, small.marked, NOT_WHOLE))
        jobs.append((f"CURRENT cut at {place}", "CURRENT", current[:place], small.marked, NOT_WHOLE))

    def do(folder, what, name, content, files, then):
        small.see(what, folder, name, content, files, then)
        counts["refused" if isinstance(then, str) else "shown"] += 1

    side_by_side(jobs, do, room)
    for name in ("CURRENT", "tree.a", "tree.b"):
        folder = lay(f"{room}/lane0", {it: content for it, content in small.marked.items() if it != name})
        see(f"without {name}", refused(folder), stop(folder, 4, f"/{name}: it is missing"))
    return f"of {len(jobs)} changes of a small store {counts['refused']} are told, and {counts['shown']} leave what the page says"


def small_store(room, made={}):
    """The small store of all scenes."""
    if room not in made:
        made[room] = Small(room)
    return made[room]


def versions(room, _):
    """A store of another form or version is refused as one, and a frame that doesn't come next counts for nothing."""
    small = small_store(room)
    folder, current, frames = f"{room}/versions", small.current, small.frames
    whole = small.marked[small.name]
    front, everything = whole[: frames[-1].end], small.last(len(frames))

    def with_current(changed):
        lay(folder, {**small.marked, "CURRENT": changed.content()})
        files = files_of(folder)
        said = refused(folder)
        see("a store of another version", files_of(folder), files)
        return said

    see("CURRENT of another version", with_current(current._replace(version=4)), stop(folder, 3, "/CURRENT: a version that isn't known"))
    see("another program's records", with_current(current._replace(machine=7)), stop(folder, 3, ANOTHER_MACHINE))
    see("a generation that isn't there", with_current(current._replace(generation=3)), stop(folder, 4, rotten(small.name, 0, 0)))
    see("the older file", with_current(current._replace(slot=0)), stop(folder, 4, rotten("tree.a", 0, 0)))
    last, body = frames[-1], b"abcd"
    for what, more in (
        ("a frame of an earlier generation", current.frame(last, RECORD, body, generation=1)),
        ("a frame of another version", current.frame(last, RECORD, body, version=4)),
        ("a frame after another one", current.frame(last, RECORD, body, before=1)),
        ("a frame whose body doesn't fit", current.frame(last, RECORD, body, body=1)),
        ("a frame that is cut", current.frame(last, RECORD, body)[:-4]),
        ("a frame with a number that was there", current.frame(last, RECORD, body, number=last.number)),
    ):
        small.see(what, folder, small.name, front + more + bytes(700), small.marked, everything)
    later = current.frame(last, RECORD, body, number=last.number + 2)
    for what, more in (("a later frame", later), ("a later frame behind others", bytes([1]) * 400 + later)):
        small.see(what, folder, small.name, front + more + bytes(700), small.marked, rotten(small.name, len(frames), frames[-1].end))
    # a frame that fits and says nothing that was called
    records = sum(it.kind == RECORD for it in frames)
    sentence = f": entry 0 of record {records} isn't one that gives what it gave"
    small.see("a record that isn't one", folder, small.name, front + current.frame(last, RECORD, body) + bytes(700), small.marked, sentence)
    profile_of_another(small, folder)


def of_profile(small, profile):
    """The frames of a small store with another profile in the head of its checkpoint, which is the first part."""
    content, last = b"", None
    for it in small.frames:
        body = profile.to_bytes(4, "big") + it.body[4:] if it.kind == PART and last is None else it.body
        content += small.current.frame(last, it.kind, body)
        last = frames_of(content)[-1]
    return content


def profile_of_another(small, folder):
    """A checkpoint of an unknown profile, or with the parts of another one, is refused. So is a call that isn't answered as it was."""
    for profile, status, sentence in (
        (2, 3, ": its checkpoint is of a profile that isn't known"),
        (1, 4, f"/{small.name}: its checkpoint and its records don't make a tree"),
    ):
        lay(folder, {**small.marked, small.name: of_profile(small, profile) + bytes(700)})
        see(f"profile {profile}", refused(folder), stop(folder, status, sentence))
    content, last = b"", None
    for it in small.frames:
        body = it.body
        if it.kind == RECORD and not any(frame.kind == RECORD for frame in frames_of(content)):
            # an entry of a call ends with the checksum of its results
            body = body[:-1] + bytes([body[-1] ^ 1])
        made = small.current.frame(last, it.kind, body)
        content, last = content + made, frames_of(content + made)[-1]
    sentence = ": entry 0 of record 0 isn't one that gives what it gave"
    small.see("another answer", folder, small.name, content + bytes(700), small.marked, sentence)
