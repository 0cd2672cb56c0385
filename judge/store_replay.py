"""The entries of a log, run again by the plain program of `model.py` over the state of a checkpoint.

Written from docs/store.md, docs/log-entries.md and docs/profile.md alone. It shares nothing with the server. The plain program has the limits of the
checkpoint's profile.
"""
import model
from model import Fail, Rd, U, u
from store_files import Refused, sip13
from store_forms import Bad, CREATED, REFUSALS, REPLY_HEAD, State, book_of, channel

MACHINE = 1
MOST_AHEAD = 1 << 20
SEQUENCE = 53
# operations that change anything, and those that may find no memory
CHANGING = {4, 6, 11, 18, 28, 29, 34, 38, 42, 44, 57, 58}
WANT_MEMORY = {6, 11, 17, 18, 29, 34, 37, 38, 42, 43}


def book_from(data):
    it = book_of(data)
    if it is None:
        return model.Book()
    return model.Book(it['domain'], it['users'], it['groups'], it['root_owner'], it['root_group'], it['root_mode'], it.get('members'))


class Replay(model.Server):
    """A server that goes on from a state, whose slots lag before each call."""

    def __init__(self, state):
        super().__init__(book_from(state.book), lasting=True, profile=state.profile)
        self.text, self.delayed, self.in_session = state.book, None, False
        self.restore_tree(state)
        self.restore_clients(state)

    def restore_tree(self, state):
        self.objs, self.names = {}, {}
        self.num, self.tick, self.stamp, self.cookie = state.counters
        for number, it in state.objects.items():
            x = self.objs[number] = model.Obj()
            x.n, x.up, x.links = number, 0, 1 if it[0] == 2 else 0
            x.kind, data, x.ow, x.gr, entries, x.high, x.change, x.ta, x.tm, x.tc, x.stamp = it
            x.data, x.lst = data.copy(), list(entries)
            if x.kind == 2:
                self.names[number] = {}
        for cookie, (directory, word, child) in state.names.items():
            self.names[directory][word] = child, cookie
            it = self.objs[child]
            if it.kind == 2:
                it.up = directory
            else:
                it.links += 1

    def restore_clients(self, state):
        self.onum, self.cnum, self.snum = state.next_open, state.next_client, state.next_session
        for number, (owner, verifier, user, confirmed, made, reclaimed) in state.records.items():
            seq, known = (made[0], kept_of(made)) if made else (0, None)
            self.clients[number] = dict(own=owner, ver=verifier, uid=user, conf=confirmed, seq=seq, kept=known, acc=0, done=reclaimed)
        for number, (client, (_, request, reply, _, operations, slots)) in state.sessions.items():
            room = [dict(last=0, used=False) for _ in range(slots)]
            self.sessions[number] = dict(cl=client, req=request, rep=reply, ops=operations, slots=room)
        for (number, slot), (last, user, group, groups, arguments, results) in state.calls.items():
            self.sessions[number]['slots'][slot] = dict(last=last, used=True, args=arguments, rep=results, caller=(user, frozenset(groups), group))
        for number, (client, owner, key, access, seqid) in state.opens.items():
            self.opens[number] = dict(n=number, cl=client, own=owner, obj=key, acc=access, seq=seqid)

    def make(self, *words):
        x = super().make(*words)
        x.stamp = self.stamp
        self.stamp += 1
        return x

    def op34(self, a):
        answer = super().op34(a)
        given = Rd(answer).M()
        for those in ({12, 33, 58, 59}, {36, 37}):
            if given & those:
                self.objs[self.fh].stamp = self.stamp
                self.stamp += 1
        return answer

    def op53(self, a):
        sid, number, slot, *_ = a
        it = self.sessions.get(int.from_bytes(sid[8:], 'big'))
        if it and slot < len(it['slots']):
            place = it['slots'][slot]
            ahead = (number - place['last']) % 2 ** 32
            if 1 <= ahead <= MOST_AHEAD:
                self.is_kept = self.is_kept or number // MOST_AHEAD != place['last'] // MOST_AHEAD
                place['last'] = (number - 1) % 2 ** 32
        return super().op53(a)

    def one(self, r):
        """An operation; that which found no memory answers DELAY, once there is room."""
        number = int.from_bytes(r.b[r.at:r.at + 4], 'big')
        self.in_session = self.in_session and not self.first or number == SEQUENCE
        if self.delayed is not None and self.i - self.in_session == self.delayed and number in WANT_MEMORY:
            self.__dict__[f'op{number}'] = self.delay
        try:
            status, result = super().one(r)
        finally:
            self.__dict__.pop(f'op{number}', None)
        self.is_kept = self.is_kept or status == 0 and number in CHANGING
        return status, result

    def delay(self, _):
        self.delayed = None
        raise Fail('DELAY')

    def op43(self, a):
        """CREATE_SESSION: a refusal that takes the number changes the client too."""
        before = self.clients.get(a[0], {}).get('seq')
        try:
            return super().op43(a)
        finally:
            self.is_kept = self.is_kept or self.clients.get(a[0], {}).get('seq') != before

    def run(self, now, record, delayed):
        """The results of a call, and whether a store keeps it."""
        self.delayed, self.is_kept, self.again = delayed, False, None
        reply = self.record(record, now)
        return reply[REPLY_HEAD:] if reply else b'', self.is_kept and self.again is None and self.delayed is None

    def load(self, data):
        self.book, self.text = book_from(data), data

    def lasting_state(self):
        """What outlives a restart, now."""
        it = State(self.profile, self.text, self.onum, self.cnum, self.snum, (self.num, self.tick, self.stamp, self.cookie))
        for number, r in self.clients.items():
            it.records[number] = r['own'], r['ver'], r['uid'], r['conf'], made_of(r), r['done']
        for number, s in self.sessions.items():
            it.sessions[number] = s['cl'], (0, s['req'], s['rep'], s['rep'], s['ops'], len(s['slots']))
            for slot, q in enumerate(s['slots']):
                if q['used']:
                    user, groups, group = q['caller']
                    it.calls[number, slot] = q['last'], user, group, tuple(sorted(groups)), q['args'], q['rep']
        for number, q in self.opens.items():
            it.opens[number] = q['cl'], q['own'], q['obj'], q['acc'], q['seq']
        for number, x in self.objs.items():
            it.objects[number] = x.kind, x.data.copy(), x.ow, x.gr, tuple(x.lst), x.high, x.change, x.ta, x.tm, x.tc, x.stamp
        for directory, there in self.names.items():
            for word, (child, cookie) in there.items():
                it.names[cookie] = directory, word, child
        return it


def kept_of(made):
    """The result of a CREATE_SESSION that a record keeps, as the plain program has it."""
    if made[1] != CREATED:
        return REFUSALS[made[1]], None
    _, _, number, sequence, persist, fore, back = made
    channels = b''.join(b''.join(map(u, it)) + u(0) for it in (fore, back))
    return None, bytes(8) + U(number) + u(sequence) + u(persist) + channels


def made_of(r):
    """The CREATE_SESSION that a record of the plain program keeps, as a checkpoint has it."""
    if r['kept'] is None:
        return None
    refused, result = r['kept']
    if refused:
        return r['seq'], model.ST[refused]
    it = Rd(result, 8)
    number, sequence, persist, fore = it.U(), it.u(), it.u() == 1, channel(it)
    it.u()
    return r['seq'], CREATED, number, sequence, persist, fore, channel(it)


def replay(log, state, entries):
    """The state after these entries, each of which answers as it did."""
    if entries and log.current.machine != MACHINE:
        raise Refused(f'{log.current.file()}: its records are of version {log.current.machine}, which is not known')
    server = Replay(state)
    for at, place, number, (kind, *said) in entries:
        where = f'{log.current.file()}: at byte {at}: entry {number} of record {place}'
        if kind == 'book':
            try:
                server.load(*said)
            except Bad as why:
                raise Refused(f'{where}: {why}') from why
        elif kind == 'client':
            if said[0] not in server.clients:
                raise Refused(f'{where}: client {said[0]} is not there')
            server.drop_client(said[0])
        else:
            now, record, delayed, checksum = said
            results, is_kept = server.run(now, record, delayed)
            found = sip13(results)
            if not is_kept:
                raise Refused(f'{where}: a call that no store keeps')
            if found != checksum:
                raise Refused(f'{where}: its results have the checksum {found:016x}, and not {checksum:016x}')
    return server.lasting_state()
