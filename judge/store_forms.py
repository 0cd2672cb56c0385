"""The content of the parts of a checkpoint and of the records of a log.

Written from docs/checkpoint.md, docs/log-entries.md, the forms in the README of session_slots, and docs/profile.md. It shares nothing with the server.
A checkpoint of either profile is read. Its head has the profile's number, which says the limits and how many parts the clients have.
"""
import dataclasses
import tomllib

from model import PIECE, PROFILES, Bytes, Rd, Short, T, U, kept, o, u
from store_files import Refused

DIRECTORY, FILE, LINK = 2, 1, 5
CREATED, REFUSALS = 0, {28: 'NOSPC', 10005: 'TOOSMALL', 10017: 'CLID_INUSE'}
NUMBERED = ('standard', 'office')  # the profile of each number of a head
CLIENT_PARTS = {'standard': 3, 'office': 17}
SESSIONS_OF_A_PART, OPENS_OF_A_PART, MOST_OF_A_PART = 32, 4096, 1048576
SLOTS, END_OF_NUMBERS = 8, 2 ** 63
BYTES, LEAST_REPLY, REPLY_HEAD = 65536, 4096, 24
BOOK = {'domain': str, 'root_owner': int, 'root_group': int, 'root_mode': int, 'users': dict, 'groups': dict}
DIGITS = '0123456789'
WHOS = ('OWNER@', 'GROUP@', 'EVERYONE@', 'u', 'g')


class Bad(Exception):
    """What is wrong with a part or a record; whoever catches it knows the place."""


def want(holds, sentence):
    if not holds:
        raise Bad(sentence)


@dataclasses.dataclass
class State:
    """What outlives a restart. Lists rise by their numbers."""
    profile: str = 'standard'
    book: bytes = None
    next_open: int = 1
    next_client: int = 1
    next_session: int = 1
    counters: tuple = None
    records: dict = dataclasses.field(default_factory=dict)
    sessions: dict = dataclasses.field(default_factory=dict)
    calls: dict = dataclasses.field(default_factory=dict)
    opens: dict = dataclasses.field(default_factory=dict)
    objects: dict = dataclasses.field(default_factory=dict)
    names: dict = dataclasses.field(default_factory=dict)


def flag(r):
    n = r.u()
    want(n < 2, f'a bool is {n}')
    return n == 1


def opaque(r, most):
    n = r.u()
    want(n <= most, f'{n} bytes where there are at most {most}')
    data = r.take(n)
    want(not any(r.take(-n % 4)), "padding isn't zero")
    return data


def moment(r):
    seconds, nanoseconds = r.I(), r.u()
    want(nanoseconds < 10 ** 9, f'a moment has {nanoseconds} nanoseconds')
    return seconds, nanoseconds


def text(r):
    n = r.u()
    want(n < 2, f'a text begins with {n}')
    return opaque(r, 2 ** 32 - 1) if n else None


def channel(r):
    return tuple(r.u() for _ in range(6))


def creation(r):
    number, refused = r.u(), r.u()
    if refused:
        want(refused in REFUSALS, f'a refusal of CREATE_SESSION is {refused}')
        return number, refused
    return number, CREATED, r.U(), r.u(), flag(r), channel(r), channel(r)


def record(r):
    number = r.U()
    return number, (opaque(r, 1024), r.take(8), r.u(), flag(r), creation(r) if flag(r) else None, flag(r))


def session(r):
    return r.U(), (r.U(), channel(r))


def call(r):
    place = r.U(), r.u()
    number, user, group, count = r.u(), r.u(), r.u(), r.u()
    want(count <= 17, f'a caller has {count} groups')
    groups = tuple(r.u() for _ in range(count))
    return place, (number, user, group, groups, opaque(r, BYTES), opaque(r, BYTES - REPLY_HEAD))


def opened(r):
    number = r.U()
    return number, (r.U(), opaque(r, 1024), r.U(), r.u(), r.u())


def entry(r):
    kind, flags, mask, who = r.u(), r.u(), r.u(), r.u()
    want(kind <= 3, f'an entry of a list has type {kind}')
    want(who < len(WHOS), f'a who is {who}')
    return kind, flags, mask, WHOS[who] if who < 3 else (WHOS[who], r.u())


def entries_of_list(r):
    count = r.u()
    want(count <= 64, f'a list has {count} entries')
    found = [entry(r) for _ in range(count)]
    want(sum(1 for it in found if kept(it)) <= 59, 'a list has more than 59 entries that a mode keeps')
    return tuple(found)


def object_of(r, access):
    """An object with this time of access, which is None where its part has none."""
    number, kind = r.U(), r.u()
    want(kind in (FILE, DIRECTORY, LINK), f'the kind of an object is {kind}')
    data, owner, group, entries, high = opaque(r, MOST_OF_A_PART), r.u(), r.u(), entries_of_list(r), r.u()
    want(kind != DIRECTORY or not data, 'a directory has bytes')
    want(kind != LINK or len(data) <= 1024, f'the text of a link has {len(data)} bytes')
    return number, (kind, Bytes(data), owner, group, entries, high, r.U(), access, moment(r), moment(r), r.U())


def name_of(r):
    return r.U(), (r.U(), opaque(r, 255), r.U())


def add_risen(there, found, what):
    number, it = found
    want(not there or number > max(there), f'{what} {number} is not above the one before it')
    there[number] = it


def book_of(data):
    """The book that this text says, as tomllib reads it; None where there is none."""
    if data is None:
        return None
    try:
        book = tomllib.loads(data.decode('utf-8'))
    except (UnicodeDecodeError, tomllib.TOMLDecodeError) as why:
        raise Bad(f'the text of the book is none: {why}') from why
    judge_book(book)
    return book


def judge_book(book):
    """The faults of a book, by the table in docs/running.md."""
    want(BOOK.keys() <= book.keys() <= BOOK.keys() | {'members'}, 'the text of the book has other keys')
    want(all(type(book[key]) is kind for key, kind in BOOK.items()), 'a value of the book has another type')
    want(0 < len(book['domain'].encode()) <= 128 and '@' not in book['domain'], 'the domain of the book is out of range')
    want(0 <= book['root_mode'] <= 0o7777 and all(0 <= book[key] < 2 ** 32 for key in ('root_owner', 'root_group')), 'a number of the book is out of range')
    for table in (book['users'], book['groups']):
        want(len(table) <= 1024, 'a table of the book has too many names')
        for name, number in table.items():
            want(0 < len(name.encode()) <= 64 and '@' not in name and not all(c in DIGITS for c in name), 'a name of the book is out of range')
            want(type(number) is int and 0 <= number < 2 ** 32, 'a number of the book is out of range')
        want(len(set(table.values())) == len(table), 'two names of the book have one number')
    judge_members(book)


def judge_members(book):
    members, counts = book.get('members', {}), {}
    want(type(members) is dict, 'a value of the book has another type')
    for group, names in members.items():
        want(type(names) is list and all(type(name) is str for name in names), 'a value of the book has another type')
        want(group in book['groups'] and len(set(names)) == len(names), 'the members of the book name a group that it lacks, or a user twice')
        for name in names:
            counts[name] = counts.get(name, 0) + 1
            want(name in book['users'] and counts[name] <= 17, 'the members of the book name a user that it lacks, or one of too many groups')


# the parts of a checkpoint


def read_head(state, r):
    profile = r.u()
    state.book = text(r)
    want(r.end(), 'bytes are left')
    want(profile < len(NUMBERED), f'its profile is {profile}, which is not known')
    state.profile = NUMBERED[profile]
    book_of(state.book)


def read_known(state, r):
    kind = r.u()
    if kind == 0:
        client, number = r.U(), r.U()
        want(state.next_client <= client <= END_OF_NUMBERS and state.next_session <= number <= END_OF_NUMBERS, 'a next number goes back, or is above 2^63')
        state.next_client, state.next_session = client, number
    elif kind == 1:
        take_record(state, *record(r))
    elif kind == 2:
        take_session(state, *session(r))
    elif kind == 3:
        take_call(state, *call(r))
    elif kind == 5:
        number, it = opened(r)
        want(number not in state.opens, f'open {number} is there twice')
        state.opens[number] = it
    else:
        raise Bad(f'a change of clients is {kind}')


def take_record(state, number, it):
    want(number < state.next_client and number not in state.records, f'client {number} is there twice, or not below the next number')
    want(not it[3] or not any(other[0] == it[0] and other[3] for other in state.records.values()), f'the owner of client {number} has two confirmed records')
    most = PROFILES[state.profile]['clients']
    want(len(state.records) < most, f'there are more than {most} clients')
    state.records[number] = it


def take_session(state, number, it):
    client, (_, request, reply, _, operations, slots) = it
    want(number < state.next_session and number not in state.sessions, f'session {number} is there twice, or not below the next number')
    want(client in state.records and state.records[client][3], f'the client of session {number} has no confirmed record')
    want(request <= BYTES and LEAST_REPLY <= reply <= BYTES and operations <= 16 and 1 <= slots <= SLOTS, f'session {number} is granted too much')
    most = PROFILES[state.profile]['sessions']
    want(len(state.sessions) < most, f'there are more than {most} sessions')
    state.sessions[number] = it


def take_call(state, place, it):
    number, slot = place
    want(number in state.sessions and slot < state.sessions[number][1][5], f'there is no slot {slot} of session {number}')
    _, request, reply, _, _, _ = state.sessions[number][1]
    want(len(it[4]) <= request and len(it[5]) <= reply - REPLY_HEAD, f'slot {slot} of session {number} has no room for its call')
    want(all(a < b for a, b in zip(it[3], it[3][1:])), f'the groups of the caller in slot {slot} of session {number} do not rise')
    state.calls[place] = it


def read_clients(state, r):
    state.next_open = r.U()
    for _ in range(r.u()):
        read_known(state, r)
    want(r.end(), 'bytes are left after its changes')


def read_part(state, r):
    kind = r.u()
    if kind == 0:
        want(state.counters is None, 'there are counters twice')
        want(not state.objects and not state.names, 'the counters come after an object or a name')
        state.counters = tuple(r.U() for _ in range(4))
    elif kind in (1, 4):
        want(state.counters is not None, 'an object comes before the counters')
        add_risen(state.objects, object_of(r, moment(r) if kind == 4 else None), 'object')
    elif kind == 2:
        want(state.counters is not None, 'a name comes before the counters')
        add_risen(state.names, name_of(r), 'cookie')
    elif kind == 3:
        take_rest(state, r.U(), r.U(), opaque(r, MOST_OF_A_PART))
    else:
        raise Bad(f'a part of the tree is {kind}')
    want(r.end(), 'bytes are left')


def take_rest(state, number, offset, data):
    """Further bytes of a file. Those before them that nothing gave are 0."""
    want(number in state.objects and state.objects[number][0] == FILE, f'a rest is of object {number}, and no file of that number came before it')
    there = state.objects[number][1]
    want(offset >= there.size, f'a rest of file {number} begins at {offset}, within its {there.size} bytes')
    want(offset + len(data) <= PROFILES[state.profile]['file'], f'file {number} has too many bytes')
    there.resize(offset)
    there.write(offset, data)


def read_state(log):
    """The state that the parts of a checkpoint hold."""
    state, name = State(), log.current.file()
    for place, frame in enumerate(log.parts):
        reader = read_head if place == 0 else read_clients if place <= CLIENT_PARTS[state.profile] else read_part
        try:
            reader(state, Rd(frame.body))
        except (Bad, Short) as why:
            raise Refused(f'{name}: at byte {frame.at}: part {place} of the checkpoint: {str(why) or "it ends too soon"}') from why
    if len(log.parts) <= 1 + CLIENT_PARTS[state.profile]:
        raise Refused(f'{name}: at byte {log.end}: its checkpoint has {len(log.parts)} parts, and so no tree')
    try:
        judge_tree(state)
        judge_opens(state)
    except Bad as why:
        raise Refused(f'{name}: its checkpoint: {why}') from why
    return state


# what stands together


def judge_tree(state):
    want(state.counters is not None, 'there are no counters')
    number, tick, stamp, cookie = state.counters
    limits = PROFILES[state.profile]
    want(max(state.counters) <= END_OF_NUMBERS, 'a counter is above 2^63')
    want(len(state.objects) <= limits['objects'], 'there are too many objects')
    stamps = set()
    for key, it in state.objects.items():
        want(0 < key < number and it[6] < tick and it[10] < stamp, f'object {key} is not below the counters')
        want(it[10] not in stamps, f'object {key} has the stamp of another one')
        stamps.add(it[10])
    want(cookie >= 3 and all(3 <= key < cookie for key in state.names), 'a cookie is below 3, or not below the counter')
    want(1 in state.objects and state.objects[1][0] == DIRECTORY, 'there is no root')
    judge_names(state, limits)


def judge_names(state, limits):
    seen, names, homes = set(), {}, {}
    for cookie, (directory, word, child) in state.names.items():
        want(directory in state.objects and state.objects[directory][0] == DIRECTORY, f'the name of cookie {cookie} is in no directory')
        want(child in state.objects and child != 1, f'the name of cookie {cookie} is of no object')
        want((directory, word) not in seen, f'directory {directory} has one name twice')
        seen.add((directory, word))
        names[directory] = names.get(directory, 0) + 1
        homes.setdefault(child, []).append(directory)
    want(all(count <= limits['names'] for count in names.values()), 'a directory has too many names')
    for key, it in state.objects.items():
        count = len(homes.get(key, []))
        want(key == 1 or 1 <= count <= (1 if it[0] == DIRECTORY else limits['links']), f'object {key} has {count} names')
    for key in homes:
        steps = 0
        while key != 1:
            key, steps = homes[key][0], steps + 1
            want(steps <= len(state.objects), 'a directory does not lead up to the root')


def judge_opens(state):
    want(len(state.opens) <= PROFILES[state.profile]['opens'], 'there are too many open files')
    want(0 < state.next_open <= END_OF_NUMBERS, f'the next open is {state.next_open}')
    before = 0
    for number, (client, _, key, access, seqid) in state.opens.items():
        want(before < number < state.next_open, f'open {number} is not above the one before it, or not below the next one')
        want(client in state.records, f'the client of open {number} has no record')
        want(key in state.objects and state.objects[key][0] == FILE, f'open {number} is of no file')
        want(1 <= access <= 3 and seqid > 0, f'open {number} has access {access} and seqid {seqid}')
        before = number


# the log


def read_entry(r):
    kind = r.u()
    if kind == 1:
        now, data, delayed = moment(r), opaque(r, 2 ** 32 - 1), r.u()
        want(delayed < 2, f'the place of a refused operation begins with {delayed}')
        return 'call', now, data, r.u() if delayed else None, r.U()
    if kind == 2:
        return 'client', r.U()
    want(kind == 3, f'an entry is of kind {kind}')
    return 'book', text(r)


def read_entries(log):
    """The entries of all records: for each the place of its record, its number in it, and what it says."""
    found = []
    for place, frame in enumerate(log.records()):
        r, number = Rd(frame.body), 0
        while not r.end():
            try:
                found.append((frame.at, place, number, read_entry(r)))
            except (Bad, Short) as why:
                raise Refused(f'{log.current.file()}: at byte {frame.at}: entry {number} of record {place}: {str(why) or "it ends too soon"}') from why
            number += 1
    return found


# the state as the parts of a checkpoint, in one spelling


def put_channel(it):
    return b''.join(map(u, it))


def put_record(number, it):
    owner, verifier, user, confirmed, made, reclaimed = it
    said = u(0)
    if made:
        said = u(1) + u(made[0]) + u(made[1])
        if made[1] == CREATED:
            said += U(made[2]) + u(made[3]) + u(made[4]) + put_channel(made[5]) + put_channel(made[6])
    return U(number) + o(owner) + verifier + u(user) + u(confirmed) + said + u(reclaimed)


def put_call(place, it):
    number, user, group, groups, arguments, results = it
    return U(place[0]) + u(place[1]) + u(number) + u(user) + u(group) + u(len(groups)) + put_channel(groups) + o(arguments) + o(results)


def put_who(who):
    return u(WHOS.index(who)) if isinstance(who, str) else u(WHOS.index(who[0])) + u(who[1])


def put_object(number, it):
    """The first part of an object: of type 4, and its time of access first, where it has one."""
    kind, data, owner, group, entries, high, change, access, modify, metadata, stamp = it
    listed = u(len(entries)) + b''.join(u(t) + u(f) + u(m) + put_who(w) for t, f, m, w in entries)
    front = u(1) if access is None else u(4) + T(access)
    made = u(kind) + o(data.read(0, MOST_OF_A_PART)) + u(owner) + u(group) + listed + u(high)
    return front + U(number) + made + U(change) + T(modify) + T(metadata) + U(stamp)


def rests_of(data):
    """The offset and the bytes of each rest of a file: of the last one, and of those before it that aren't 0 alone."""
    last = (data.size - 1) // MOST_OF_A_PART
    for place in sorted({at * PIECE // MOST_OF_A_PART for at in data.pieces} | {last}):
        rest = data.read(place * MOST_OF_A_PART, MOST_OF_A_PART)
        if place > 0 and (place == last or rest.strip(b'\0')):
            yield place * MOST_OF_A_PART, rest


def put_clients(state, changes):
    return U(state.next_open) + u(len(changes)) + b''.join(changes)


def parts_of(state):
    """The parts of a checkpoint of this state, as docs/checkpoint.md says that they are written."""
    yield u(NUMBERED.index(state.profile)) + (u(0) if state.book is None else u(1) + o(state.book))
    first = [u(0) + U(state.next_client) + U(state.next_session)]
    first += [u(1) + put_record(number, it) for number, it in sorted(state.records.items())]
    first += [u(2) + U(number) + U(it[0]) + put_channel(it[1]) for number, it in sorted(state.sessions.items())]
    opens = [u(5) + U(n) + U(it[0]) + o(it[1]) + U(it[2]) + u(it[3]) + u(it[4]) for n, it in sorted(state.opens.items())]
    yield put_clients(state, first + opens[:OPENS_OF_A_PART])
    sessions = sorted(state.sessions)
    for place in range(1, CLIENT_PARTS[state.profile]):
        those = set(sessions[SESSIONS_OF_A_PART * (place - 1):SESSIONS_OF_A_PART * place])
        calls = [u(3) + put_call(slot, it) for slot, it in sorted(state.calls.items()) if slot[0] in those]
        yield put_clients(state, calls + opens[OPENS_OF_A_PART * place:OPENS_OF_A_PART * (place + 1)])
    yield u(0) + b''.join(map(U, state.counters))
    for number, it in sorted(state.objects.items()):
        yield put_object(number, it)
        for offset, rest in rests_of(it[1]):
            yield u(3) + U(number) + U(offset) + o(rest)
    for cookie, (directory, word, child) in sorted(state.names.items()):
        yield u(2) + U(cookie) + U(directory) + o(word) + U(child)
