"""Scenes of .ci/stored: copies of a folder, made while a server writes."""
import itertools
import os
import shutil
import signal
import struct
import threading
import time

from stored_bits import ROTTEN, close_by_another, side_by_side
from stored_bytes import END, FILES, content_of_file, Current, files_of, frames_of, lay
from stored_lab import (
    PATIENCE, RANDOM, four_writers, Gone, held, import_files, names_in_root, Peer, see, Server,
)


def told_in(said, place):
    """The sentence of a stop."""
    return said.split("\n")[1].removeprefix(place)


def copied_while_written(room, _):
    """A folder is copied while writers change it. The copy is refused as damaged, or has all that was answered before."""
    folder, counts = f"{room}/written", {True: 0, False: 0}
    server = Server(folder)
    writers = four_writers(server)
    copies = []
    for number in range(8):
        time.sleep(0.05)
        copies.append((f"{folder} copy {number}", [it.answered for it in writers]))
        shutil.copytree(folder, copies[-1][0])
    server.kill()
    for it in writers:
        it.ends()
    for place, answered in copies:
        other, said = Server.tried(place)
        counts[other is not None] += 1
        if other is None:
            see("a copy that is refused", bool(ROTTEN.fullmatch(told_in(said, place))) or said, True)
            continue
        peer = Peer(other, "looks")
        for it, count in zip(writers, answered):
            see("a copy has what was answered before", held(peer, b"%d" % it.number) in [*it.history[count:], it.maybe], True)
        other.kill()
    return f"of {len(copies)} copies {counts[False]} are told and {counts[True]} have all"


class Call(threading.Thread):
    """The call of this number of a client: the first two make the client and its session, and each other one a file."""

    def __init__(self, server, peer, number):
        super().__init__(daemon=True)
        self.server, self.peer, self.number, self.wrong = server, peer, number, None

    def run(self):
        try:
            if self.number == 0:
                self.peer.begin(self.server, "makes")
                self.peer.client, self.peer.sequence_of_session, _ = self.peer.exchange()
                return
            self.peer.go_on(self.server)
            if self.number == 1:
                self.peer.create(self.peer.sequence_of_session)
            else:
                self.peer.make(b"", b"n%d" % self.number, b"x")
        except (Gone, OSError, SystemExit) as wrong:
            self.wrong = wrong

    def ends(self, names):
        """Waits for it, and adds the name of its file."""
        if not self.is_alive() and self.ident is None:
            self.start()
        self.join(PATIENCE)
        see("a call is answered", (self.is_alive(), self.wrong), (False, None))
        if self.number > 1:
            names.append(b"n%d" % self.number)


def stop_in_checkpoint(server, folder, before):
    """Stops a server as soon as it has written bytes of a checkpoint into the other file. Whether that has no end by then."""
    end, path = time.monotonic() + PATIENCE, f"{folder}/{FILES[1 - before.slot]}"
    head = struct.pack(">2Q", before.version, before.generation + 1)
    with open(path, "rb", buffering=0) as it:
        while os.pread(it.fileno(), 16, 0) != head and time.monotonic() < end:
            pass
    server.ran.send_signal(signal.SIGSTOP)
    # until it stands still
    while state_of(server) != "T" and time.monotonic() < end:
        pass
    frames = frames_of(content_of_file(path))
    return not frames or frames[-1].kind != END


def state_of(server):
    """The state of a process, as the system says it."""
    with open(f"/proc/{server.ran.pid}/stat", encoding="ascii") as it:
        return it.read().rsplit(")", 1)[1].split()[0]


def copied_meanwhile(room, _):
    """A folder is copied file by file, in each order, while checkpoints are written and other calls are answered. The copy is
    refused as damaged, or has each call that was answered before it began."""
    folder, stages, mids = f"{room}/copied", [], 0
    made, peer, names = import_files(room, folder, 5, 80_000), Peer.__new__(Peer), []
    for number in range(6):
        close_by_another(folder)
        before = Current.of(folder)
        stages.append((tuple(names), files_of(folder)))
        server = Server(folder)
        call = Call(server, peer, number)
        call.start()
        mids += stop_in_checkpoint(server, folder, before)
        stages.append((tuple(names), files_of(folder)))
        server.ran.send_signal(signal.SIGCONT)
        call.ends(names)
        see("a checkpoint was written", Current.of(folder).generation, before.generation + 1)
        stages.append((tuple(names), files_of(folder)))
        for more in range(3 if number == 5 else 0):
            Call(server, peer, 100 + more).ends(names)
            stages.append((tuple(names), files_of(folder)))
        server.kill()
    counts = {True: 0, False: 0}
    seen, jobs = set(), []
    for one, other in itertools.product(range(len(stages)), repeat=2):
        current, named = stages[one][1], stages[other][1]
        # the last byte of the slot
        name = FILES[current["CURRENT"][47]]
        files = {**stages[RANDOM.randrange(len(stages))][1], "CURRENT": current["CURRENT"], name: named[name]}
        if (current["CURRENT"], named[name]) not in seen:
            seen.add((current["CURRENT"], named[name]))
            jobs.append((f"CURRENT of stage {one} and {name} of stage {other}", files, stages[min(one, other)][0], one == other))

    def do(place, what, files, answered, is_whole):
        server, said = Server.tried(lay(place, files))
        counts[server is not None] += 1
        if server is None:
            see(f"{what}: damage is told", bool(ROTTEN.fullmatch(told_in(said, place))) or said, True)
            see(f"{what}: a whole copy", is_whole, False)
            see(f"{what}: a store that is refused", files_of(place), files)
            return
        there_is = names_in_root(server)
        server.kill()
        see(f"{what}: what was answered before", [it for it in (*made, *answered) if it not in there_is], [])

    side_by_side(jobs, do, room)
    return f"of {len(jobs)} copies that were made meanwhile, with {mids} checkpoints half written, {counts[False]} are told and {counts[True]} have all"
