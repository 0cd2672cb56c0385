#!/usr/bin/env python3
"""A second reader of stores: the content of a folder, read and replayed by plain programs.

    stores.py FOLDER             counts, and a hash of the state that a server would start with
    stores.py FOLDER --tree      each path: its object's number, type, mode, owner, group and size
    stores.py FOLDER --calls     each entry of the log

It was written from docs/store.md and the pages that it names, and from docs/profile.md. It shares nothing with the server. It checks each checksum and the chain
of frames. It reads the checkpoint, and replays the entries of the log, whose results must have the stored checksums. The hash is SHA-256 of the parts
of a checkpoint of that state. A store that isn't intact is refused: a sentence names the file and the place, and the status is 1. The profile, standard (0)
or office (1), is the one that the checkpoint names; the limits and the replay are by it.
"""
import datetime
import hashlib
import os
import sys

sys.dont_write_bytecode = True
sys.path.insert(0, os.path.dirname(os.path.abspath(__file__)))
from store_files import VERSION, Current, Refused, read_folder
from store_forms import NUMBERED, parts_of, read_entries, read_state
from store_replay import replay
import model
from model import Rd, Short

SESSIONS = {42: 'EXCHANGE_ID', 43: 'CREATE_SESSION', 44: 'DESTROY_SESSION', 53: 'SEQUENCE', 57: 'DESTROY_CLIENTID', 58: 'RECLAIM_COMPLETE'}
OPERATIONS = {**model.NAMES, **SESSIONS}


class Store:
    """What a folder has: the log, the state of its checkpoint, its entries, and the state after them."""

    def __init__(self, folder):
        self.log = read_folder(folder)
        self.is_empty = self.log is None or isinstance(self.log, Current)
        if not self.is_empty:
            self.kept = read_state(self.log)
            self.entries = read_entries(self.log)
            self.state = replay(self.log, self.kept, self.entries)

    def digest(self):
        it = hashlib.sha256()
        for part in parts_of(self.state):
            it.update(len(part).to_bytes(8, 'big') + part)
        return it.hexdigest()

    def values(self):
        """Names with their values; those that `nfstore` prints have its names."""
        if self.is_empty:
            return {'generation': 0}
        log, it = self.log, self.state
        kinds = [what[0] for _, _, _, what in self.entries]
        number, tick, stamp, cookie = it.counters
        return {
            'format': VERSION,
            'machine': log.current.machine,
            'profile': NUMBERED.index(it.profile),
            'file': log.current.file(),
            'generation': log.current.generation,
            'begun': log.current.begun,
            'frames': len(log.parts) + 1 + len(log.rest),
            'records': len(log.records()),
            'entries': len(kinds),
            'torn': log.torn,
            'next-number': number,
            'next-tick': tick,
            'next-stamp': stamp,
            'next-cookie': cookie,
            'next-client': it.next_client,
            'next-session': it.next_session,
            'next-open': it.next_open,
            'clients': len(it.records),
            'sessions': len(it.sessions),
            'opens': len(it.opens),
            'objects': len(it.objects),
            'names': len(it.names),
            'marks': len(log.rest) - len(log.records()),
            'calls': kinds.count('call'),
            'let-go': kinds.count('client'),
            'books': kinds.count('book'),
            'kept-calls': len(it.calls),
            'book': 0 if it.book is None else len(it.book),
            'state': self.digest(),
        }

    def lines(self):
        return (f'{name} {value}' for name, value in self.values().items())

    def tree(self):
        below = {}
        for cookie, (directory, word, child) in sorted(self.state.names.items()):
            below.setdefault(directory, []).append((word, child))
        left = [('/', 1)]
        while left:
            path, number = left.pop()
            kind, data, owner, group, entries, high, *_ = self.state.objects[number]
            yield f'{number} {model_kind(kind)} {high | model.mode_of(entries):04o} {owner} {group} {data.size} {path}'
            here = [(path.rstrip('/') + '/' + spelled(word), child) for word, child in below.get(number, [])]
            left += reversed(here)

    def calls(self):
        """Each entry: its number, and when, by whom and which operations; paths are left to `nfstore`."""
        for number, (_, _, _, (kind, *it)) in enumerate(self.entries, 1):
            if kind == 'client':
                yield f'{number} client {it[0]} let go'
            elif kind == 'book':
                yield f'{number} book loaded'
            else:
                (seconds, _), record, *_ = it
                moment = datetime.datetime(1970, 1, 1) + datetime.timedelta(seconds=seconds)
                yield f'{number} {moment:%Y-%m-%dT%H:%M:%SZ} {described(record)}'


def described(record):
    """The caller of a call and the names of its operations, as far as they can be read."""
    r = Rd(record, 24)
    r.u()
    body = Rd(r.o())
    body.u()
    body.o()
    words = [f'uid {body.u()} gid {body.u()}']
    r.u()
    r.o()
    r.o()
    r.u()
    try:
        for _ in range(r.u()):
            number = r.u()
            if number not in OPERATIONS:
                break
            model.read_args(number, r)
            words.append(OPERATIONS[number])
    except (Short, model.Quit):
        pass
    return ' '.join(words)


def model_kind(kind):
    return {1: 'file', 2: 'directory', 5: 'link'}[kind]


def spelled(word):
    return ''.join(f'\\x{ord(c):02x}' if ord(c) < 32 or ord(c) == 127 else c for c in word.decode('utf-8', 'surrogateescape'))


def main(folder, *words):
    try:
        store = Store(folder)
    except Refused as why:
        print(f'stores: {folder}: {why}', file=sys.stderr)
        return 1
    what = store.lines() if not words else [] if store.is_empty else {'--tree': store.tree, '--calls': store.calls}[words[0]]()
    for line in what:
        print(line)
    return 0


if __name__ == '__main__':
    if not 2 <= len(sys.argv) <= 3 or sys.argv[2:] not in ([], ['--tree'], ['--calls']):
        sys.exit(__doc__)
    sys.exit(main(*sys.argv[1:]))
