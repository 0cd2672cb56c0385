#!/usr/bin/env python3
"""`stores.py` and `nfstore` over the same stores.

    stores_beside.py NFSD NFSTORE runs FIRST SEEDS CALLS [BOOK ..]
    stores_beside.py NFSD NFSTORE damage SEED CALLS [STEP]
    stores_beside.py NFSD NFSTORE forms SEED CALLS [STEP]
    stores_beside.py NFSD NFSTORE edges

Each takes `--profile standard|office` too: the profile of the stores, standard if it isn't given.
Each seed fills a store by random calls, over three starts of a server that is killed. With BOOKs one after the other is loaded. The reports of both are
compared: the values, the tree, the calls, and a checkpoint that `nfstore --close` makes of a copy, byte for byte. "damage" changes a small store: a bit of
each byte, each length of each file, and files that are missing, foreign or exchanged. "forms" changes each byte of a part or record and computes its checksums again.
Of a longer one these are the first and the last of its bytes. If one refuses a store, the other has to. Else their reports have to be equal. With STEP each
STEPth change is tried. "edges" compares a store of the written calls of calls.py: files of the greatest size with holes, many clients, open files and names.
A difference is printed, and the status is 1.
"""
import os
import random
import re
import shutil
import socket
import struct
import subprocess
import sys
import tempfile
import time
from itertools import chain

sys.dont_write_bytecode = True
sys.path.insert(0, os.path.dirname(os.path.abspath(__file__)))
import calls
import model
import stores
from store_files import MARK, Refused, frames_of, read_current
from store_forms import parts_of

STARTS = 3
END = 2048  # so many bytes at each end of a long body are changed by "forms"
# without what makes each start of a program with checks slow
AROUND = {**os.environ, 'ASAN_OPTIONS': 'detect_stack_use_after_return=0:replace_intrin=0'}
DIFFER = []


def differs(*words):
    DIFFER.append(words)
    print(*words, flush=True)


# stores that a server makes


def fill(nfsd, folder, profile, seed, count, books):
    """Makes a store of a profile by so many calls, over some starts."""
    rng, book = random.Random(seed), f'{folder}.toml'
    if books:
        shutil.copy(books[0], book)
    srv = model.Server(calls.book_of(books[0]) if books else model.Book(), lasting=True, profile=profile)
    g = calls.Gen(rng, srv)
    g.hist, g.opened = {}, False
    words = ['--profile', profile, '--connections', '1', '--store', folder] + (['--book', book] if books else [])
    for start in range(STARTS):
        ran, port = calls.begun(nfsd, random.Random(), words)
        with socket.create_connection(('127.0.0.1', port)) as peer, peer.makefile('rb') as replies:
            for _ in range(count // STARTS):
                if len(books) > 1 and rng.random() < 0.02:
                    shutil.copy(rng.choice(books), f'{book}.new')
                    os.replace(f'{book}.new', book)
                record, cred = calls.next_call(g, seed, srv)
                srv.record(record, next(calls.MOMENTS))
                calls.remember(g, srv, record, cred)
                peer.sendall(calls.head(record))
                replies.read(int.from_bytes(replies.read(4), 'big') & 0x7fffffff)
            if start == 0:
                time.sleep(1.2)  # for a mark
        ran.kill()
        ran.wait()


def fill_edges(nfsd, folder, profile):
    """Makes a store of a profile by written calls."""
    srv = model.Server(lasting=True, profile=profile)
    ran, port = calls.begun(nfsd, random.Random(), ['--profile', profile, '--connections', '1', '--store', folder])
    with socket.create_connection(('127.0.0.1', port)) as peer, peer.makefile('rb') as replies:
        for record in calls.edges(srv):
            srv.record(record, next(calls.MOMENTS))
            peer.sendall(calls.head(record))
            replies.read(int.from_bytes(replies.read(4), 'big') & 0x7fffffff)
    ran.kill()
    ran.wait()


# what both say


def said(nfstore, folder, *words):
    """What nfstore prints, or None where it refuses."""
    ran = subprocess.run([nfstore, folder, *words], capture_output=True, text=True, errors='surrogateescape', env=AROUND, check=False)
    return ran.stdout.splitlines() if ran.returncode == 0 else None


def read(folder):
    """A store as the second reader has it, or the sentence by which it refuses."""
    try:
        return stores.Store(folder)
    except Refused as why:
        return str(why)


def compare(nfstore, folder, what):
    """Compares what both say of a store, and whether they refuse it."""
    theirs, mine = said(nfstore, folder), read(folder)
    if theirs is None or isinstance(mine, str):
        if theirs is not None or not isinstance(mine, str):
            differs(what, 'is refused by', f'stores.py alone: {mine}' if theirs is not None else 'nfstore alone')
        return False
    if mine.is_empty:
        return True
    values = mine.values()
    for line in theirs:
        name, _, value = line.partition(' ')
        if str(values.get(name)) != value:
            differs(what, 'nfstore says', line, 'and stores.py', values.get(name))
    return True


def compare_lists(nfstore, folder, what):
    mine = read(folder)
    for word, lines in (('--tree', mine.tree()), ('--calls', mine.calls())):
        theirs, lines = said(nfstore, folder, word), list(lines)
        if word == '--calls':
            theirs = [shortened(a, b) for a, b in zip(theirs, lines)] + theirs[len(lines):]
        for a, b in zip(theirs + [None] * len(lines), lines + [None] * len(theirs)):
            if a != b:
                differs(what, word, 'nfstore', a, 'stores.py', b)
                break


def shortened(theirs, mine):
    """A line of `nfstore --calls` without what it says of paths: the words of the other line, where all stand in it in their order."""
    place = 0
    for word in mine.split(' '):
        found = re.compile(rf'(?:^| ){re.escape(word)}(?= |$)').search(theirs, place)
        if not found:
            return theirs
        place = found.end()
    return mine


def compare_closed(nfstore, folder, what):
    """Whether a checkpoint of the replayed state has the parts that the second reader would write."""
    mine, copy = read(folder), f'{folder}.closed'
    shutil.copytree(folder, copy)
    if said(nfstore, copy, '--close') is None:
        return differs(what, 'nfstore --close refuses it')
    closed = read(copy)
    shutil.rmtree(copy)
    if isinstance(closed, str):
        return differs(what, 'closed:', closed)
    parts = [frame.body for frame in closed.log.parts]
    for place, (theirs, part) in enumerate(zip(parts, parts_of(mine.state))):
        if theirs != part:
            return differs(what, f'closed: part {place} differs', theirs.hex(), part.hex())
    if mine.digest() != closed.digest() or len(parts) != len(list(parts_of(mine.state))):
        differs(what, 'closed: another state')


def runs(nfsd, nfstore, room, profile, first, seeds, count, *books):
    for seed in range(int(first), int(first) + int(seeds)):
        folder = f'{room}/{seed}'
        fill(nfsd, folder, profile, seed, int(count), books)
        compare_all(nfstore, folder, f'seed {seed}:')
        shutil.rmtree(folder)
    return int(seeds)


def compare_all(nfstore, folder, what):
    if not compare(nfstore, folder, what):
        return differs(what, read(folder))
    compare_lists(nfstore, folder, what)
    compare_closed(nfstore, folder, what)


def edges(nfsd, nfstore, room, profile):
    fill_edges(nfsd, f'{room}/store', profile)
    compare_all(nfstore, f'{room}/store', 'edges:')
    return 1


# stores that are damaged


def ends(data):
    """The places of all bytes, or of a long body those of the first and the last ones."""
    return [at for at in range(len(data)) if at < END or at >= len(data) - END]


def bits(data, rng, places=None):
    for at in range(len(data)) if places is None else places:
        bit = rng.randrange(8)
        yield f'bit {bit} of byte {at} turned', data[:at] + bytes([data[at] ^ 1 << bit]) + data[at + 1:]


def lengths(data, places=None):
    for size in range(len(data)) if places is None else places:
        yield f'cut to {size} bytes', data[:size]
    for more in (b'\0', bytes(64), b'x', b'x' * 64):
        yield f'{len(more)} bytes more, {more[:1]!r}', data + more


def spoiled(data, rng):
    """Runs of bytes that became zero, or those of another place."""
    for at in range(0, len(data), 32):
        for size in (4, 8, 64, 512):
            yield f'{size} bytes zero at {at}', data[:at] + bytes(size) + data[at + size:]
            other = rng.randrange(0, len(data), 4)
            yield f'{size} bytes of {other} at {at}', (data[:at] + data[other:other + size] + data[at + size:])[:max(len(data), at + size)]


def damages(folder, rng):
    """Damaged files: for each what was done, its name, and its bytes."""
    current = open(f'{folder}/CURRENT', 'rb').read()
    counts = read_current(current).file()
    data = open(f'{folder}/{counts}', 'rb').read()
    used = frames_of(read_current(current), data)[1]
    data = data[:used] + bytes(64)
    for name, it in (('CURRENT', current), (counts, data)):
        for change in (bits(it, rng), lengths(it), spoiled(it, rng)):
            for what, done in change:
                yield f'{name}: {what}', {name: done}
    other = 'tree.a' if counts == 'tree.b' else 'tree.b'
    for name in ('LOCK', 'CURRENT', 'tree.a', 'tree.b'):
        yield f'{name}: gone', {name: None}
    yield 'exchanged files', {counts: open(f'{folder}/{other}', 'rb').read(), other: data}
    yield 'all empty', {'CURRENT': None, 'tree.a': b'', 'tree.b': b''}
    yield 'an earlier store', {'tree.key': b'x'}


def put(folder, name, data):
    """The file has these bytes, or isn't there."""
    path = f'{folder}/{name}'
    if os.path.lexists(path):
        os.unlink(path)
    if data is not None:
        with open(path, 'wb') as it:
            it.write(data)


def try_changes(nfstore, folder, changes, step):
    """Compares what both say after each change, and gives how many there were, and how many were refused."""
    tried = refused = 0
    for place, (what, files) in enumerate(changes):
        if place % step:
            continue
        before = {name: open(f'{folder}/{name}', 'rb').read() if os.path.exists(f'{folder}/{name}') else None for name in files}
        for name, data in files.items():
            put(folder, name, data)
        tried, refused = tried + 1, refused + (not compare(nfstore, folder, what))
        for name, data in before.items():
            put(folder, name, data)
        if len(DIFFER) > 20:
            break
    print(f'{tried} changes, {refused} of them refused by both', flush=True)
    return tried


def damage(nfsd, nfstore, room, profile, seed, count, step='1'):
    folder = f'{room}/store'
    fill(nfsd, folder, profile, int(seed), int(count), ())
    return try_changes(nfstore, folder, damages(folder, random.Random(int(seed))), int(step))


# parts and records that no server writes


def framed(current, number, before, kind, body):
    """A frame, and the digest of its head."""
    head = (3, current.generation, number, before, kind, len(body), current.digest(body))
    digest = current.digest(struct.pack('<7Q', *head))
    return struct.pack('>7QQ', *head, digest) + model.o(body), digest


def file_with(current, bodies):
    data, before = b'', 0
    for number, (kind, body) in enumerate(bodies):
        frame, before = framed(current, number, before, kind, body)
        data += frame
    return data + bytes(64)


def forms_of(folder, rng):
    """Files with one body that was changed, or is gone, or stands twice, whose digests fit."""
    current = read_current(open(f'{folder}/CURRENT', 'rb').read())
    frames = frames_of(current, open(f'{folder}/{current.file()}', 'rb').read())[0]
    bodies = [(frame.kind, frame.body) for frame in frames if frame.kind != MARK]
    for place, (kind, body) in enumerate(bodies):
        front, back = bodies[:place], bodies[place + 1:]
        for what, done in chain(bits(body, rng, ends(body)), lengths(body, ends(body)), words(body)):
            yield f'body {place}: {what}', {current.file(): file_with(current, [*front, (kind, done), *back])}
        yield f'body {place} gone', {current.file(): file_with(current, front + back)}
        yield f'body {place} twice', {current.file(): file_with(current, [*front, (kind, body), (kind, body), *back])}
        if back:
            yield f'body {place} after the next one', {current.file(): file_with(current, [*front, back[0], (kind, body), *back[1:]])}


def words(body):
    """Each word one more and one less, and the greatest."""
    for at in [at for at in ends(body) if at % 4 == 0 and at + 4 <= len(body)]:
        word = int.from_bytes(body[at:at + 4], 'big')
        for other in {(word + 1) % 2 ** 32, (word - 1) % 2 ** 32, 2 ** 32 - 1} - {word}:
            yield f'word {at // 4} is {other}', body[:at] + other.to_bytes(4, 'big') + body[at + 4:]


def forms(nfsd, nfstore, room, profile, seed, count, step='1'):
    folder = f'{room}/store'
    fill(nfsd, folder, profile, int(seed), int(count), (f'{os.path.dirname(os.path.abspath(__file__))}/members.toml',))
    tried = try_changes(nfstore, folder, forms_of(folder, random.Random(int(seed))), int(step))
    said(nfstore, folder, '--close')
    return tried + try_changes(nfstore, folder, forms_of(folder, random.Random(int(seed))), int(step))


def main(profile, nfsd, nfstore, mode, *words_of_mode):
    since = time.time()
    with tempfile.TemporaryDirectory(prefix='stores-') as room:
        made = {'runs': runs, 'damage': damage, 'forms': forms, 'edges': edges}[mode]
        tried = made(os.path.abspath(nfsd), os.path.abspath(nfstore), room, profile, *words_of_mode)
    print(f'{mode}: {tried} stores, {len(DIFFER)} differences, {time.time() - since:.0f} s')
    return 1 if DIFFER else 0


if __name__ == '__main__':
    profile_asked, words_given = calls.profile_of(sys.argv[1:])
    if words_given[2:] != ['edges'] and (len(words_given) < 5 or words_given[2] not in ('runs', 'damage', 'forms')) or profile_asked is None:
        sys.exit(__doc__)
    sys.exit(main(profile_asked, *words_given))
