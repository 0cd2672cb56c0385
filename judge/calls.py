#!/usr/bin/env python3
"""Random calls to nfsd and to the plain program of `model.py`, side by side.

    calls.py NFSD bare|net|many FIRST SEEDS CALLS [BOOK ..] [--profile standard|office]
    calls.py NFSD edges [--profile standard|office]

Each seed from FIRST on begins a server, over standard input and output (bare), or over 127.0.0.1 with sessions (net, many), and makes that many calls. A reply
that differs in a byte is printed, and the status is 1; with net and many the first line in which the audit trail's file differs is printed too. Both have the names and
members of the file BOOK, if it is given. With many there are four connections at once: a call may arrive in two parts, between which the others make theirs;
several may be sent at once; a fifth connection breaks now and then; and if several books are given, one after the other is loaded. Under the standard profile
times aren't requested, since the server's clock is its own. Under office they are set and requested. A reply has a moment of the server's clock where the
plain program's has the mark of a call: one moment for each call, and none before the run or after the reply.
Server and plain program have the limits of one profile, standard if the option isn't given. With office sizes and
offsets around 2^40 are drawn too, and there may be more clients. A server without sessions (bare) has no office profile. With edges the calls are written,
and go up to limits of the profile and one further. These are the bytes and names of a file, clients and sessions. Under the standard profile they are the names
of a directory and open files too.
"""
import itertools, random, re, shutil, socket, struct, subprocess, sys, tempfile, time, os, tomllib
sys.path.insert(0, os.path.dirname(os.path.abspath(__file__)))
import model
from model import u, U, I, o, M, Rd
NAMES = [b'a', b'b', b'c', b'd', b'notes', b'pub', b'e', b'f']
ODD = [b'', b'.', b'..', b'x/y', b'z\x00', b'\xff\xfe', b'n' * 255, b'n' * 256, 'é'.encode(), b'q' * 300]
UIDS = [0, 1001, 1002, 5]
GIDS = [0, 100, 7]
WHOS = [b'OWNER@', b'GROUP@', b'EVERYONE@', b'1001', b'1002', b'0', b'100', b'7', b'01', b'nobody', b'alice@example.org', b'staff@example.org', b'alice@localdomain', b'owner@']
ANON = (0, bytes(12))
BYP = (0xffffffff, b'\xff' * 12)


# what is drawn beside the standard profile's sizes, and beside its offsets of READ and of WRITE: around 2 MiB and 2^40
SIZES = [2 ** 21 - 1, 2 ** 21 + 7, 3 * 2 ** 20, 2 ** 40 - 1, 2 ** 40 + 1]
PLACES = [2 ** 20 - 1, 2 ** 20, 2 ** 21, 2 ** 40 - 3000, 2 ** 40 - 5, 2 ** 40 - 1, 2 ** 40]
# times of a client, whose nanoseconds may be too many
SECONDS = [0, 1, -1, 86400, 10 ** 9, 2 ** 31, 2 ** 32 + 5, -10 ** 9, 2 ** 63 - 1, -2 ** 63]
NANOSECONDS = [0, 0, 1, 5, 10 ** 9 - 1]
TOO_MANY = [10 ** 9, 10 ** 9 + 1, 2 ** 32 - 1]
# The plain program has no clock: each call has a moment of its own, whose bytes no other value has.
MARK, FRACTION = 0x5ea1c10c, 987654321
MOMENTS = ((MARK << 32 | n, FRACTION) for n in itertools.count())
MARKED = re.compile(re.escape(u(MARK)) + b'.{4}' + re.escape(u(FRACTION)), re.DOTALL)
BEGUN = time.time()


class Gen:
    def __init__(self, rng, srv):
        self.r = rng
        self.s = srv
        self.sids = []
        is_long = self.has_times = srv.profile == 'office'
        self.sizes = [0, 0, 0, 1, 3, 10, 5000, 1048576, 1048577, 2 ** 40] + SIZES * is_long
        self.reads = [0, 0, 1, 2, 100, 2 ** 63, 2 ** 64 - 1] + PLACES * is_long
        self.writes = [0, 0, 1, 2, 3, 5, 100, 1048575, 1048576, 2 ** 64 - 1] + PLACES * is_long

    def name(self):
        return self.r.choice(ODD) if self.r.random() < 0.06 else self.r.choice(NAMES)

    def S(self):
        r = self.r
        x = r.random()
        if x < 0.45:
            return ANON
        if x < 0.5:
            return BYP
        if x < 0.53:
            return (r.choice([0, 1, 0xffffffff]), r.choice([bytes(12), b'\xff' * 12]))
        ids = list(self.s.opens) or [1]
        n = r.choice(ids)
        q = self.s.opens.get(n)
        seq = q['seq'] if q else 1
        return (r.choice([0, seq, seq, seq, max(0, seq - 1), seq + 1]), bytes(4) + U(n + (r.random() < 0.05)))

    def want(self):
        r = self.r
        x = r.random()
        if x < 0.2:
            return set()
        if x < 0.3:
            return {1, 11, 33}
        if x < 0.4:
            return self.compared()
        it = {a for a in r.sample(range(0, 80), r.randint(1, 8)) if a not in (52, 53)} | ({11} if r.random() < 0.4 else set()) | ({12} if r.random() < 0.2 else set()) | ({33} if r.random() < 0.3 else set()) | {a for a in (58, 59) if r.random() < 0.08}
        if self.has_times:
            it -= model.ONLY_SET
            it |= {a for a in (15, 45, 47, 51, 52, 53) if r.random() < 0.15} | {a for a in (48, 54) if r.random() < 0.01}
        return it

    def compared(self):
        """the attributes that are read and compared"""
        return self.s.supp - (model.ONLY_SET if self.has_times else {52, 53})

    def ace(self):
        r = self.r
        t = r.choice([0] * 6 + [1] * 4 + [2, 3] + ([4] if r.random() < 0.05 else []))
        f = r.choice([0, 0, 0, 3, 1, 2, 11, 8, 4, 7, 16, 32, 0x30, 64, 0x80]) if r.random() < 0.98 else 256
        m = r.choice([0x1f01ff & model.DEFINED, 1, 2, 4, 32, 64, 0x80, 65536, 0x20000, 0x40000, 0x80000, 0x1200a9, 0xe0187, r.getrandbits(21) & model.DEFINED, 0] + [0x100, 0x102, 2] * self.has_times)
        if r.random() < 0.01:
            m = 0x800
        w = r.choice(WHOS[:8]) if r.random() < 0.9 else r.choice(WHOS)
        return u(t) + u(f) + u(m) + o(w)

    def acl(self):
        r = self.r
        n = r.choice([0, 1, 2, 3, 4, 5, 6]) if r.random() < 0.97 else r.choice([58, 59, 60])
        es = [self.ace() for _ in range(n)]
        if r.random() < 0.6:
            es.append(u(0) + u(r.choice([0, 3])) + u(0x1f01ff & model.DEFINED) + o(b'EVERYONE@'))
        return u(len(es)) + b''.join(es)

    def part(self, types):
        """the list of dacl or sacl, mostly of its types alone"""
        r = self.r
        n = r.choice([0, 1, 1, 2, 3]) if r.random() < 0.95 else r.choice([40, 58, 59, 60])
        es = [(u(r.choice(types)) if r.random() < 0.98 else b'') + self.ace()[4:] for _ in range(n)]
        if 0 in types and r.random() < 0.6:
            es.append(u(0) + u(r.choice([0, 3])) + u(0x1f01ff & model.DEFINED) + o(b'EVERYONE@'))
        return u(0 if r.random() < 0.97 else 1) + u(len(es)) + b''.join(es)

    def F(self, size=0.1):
        r = self.r
        d = {}
        if r.random() < size:
            d[4] = U(r.choice(self.sizes))
        if r.random() < 0.25:
            d[12] = self.acl()
        if r.random() < 0.3:
            d[33] = u(r.choice([0o755, 0o644, 0o600, 0o777, 4095, 0, 4096, r.getrandbits(12)]))
        if r.random() < 0.08:
            d[36] = o(r.choice([b'1001', b'0', b'1002', b'alice@example.org', b'x']))
        if r.random() < 0.08:
            d[37] = o(r.choice([b'100', b'0', b'7', b'staff@example.org', b'x']))
        if r.random() < 0.1:
            d[58] = self.part([0, 0, 0, 1])
        if r.random() < 0.1:
            d[59] = self.part([2, 3])
        if self.has_times and r.random() < 0.4:
            d |= self.times()
        if r.random() < 0.03:
            d[r.choice([3, 1, 14, 54, 75, 58] + [15, 45, 47, 51] * self.has_times)] = u(1)
        b = b''.join((d[k] for k in sorted(d)))
        if r.random() < 0.02:
            b += b'\x00\x00\x00\x00'
        if r.random() < 0.01:
            b = b[:-4]
        return M(set(d)) + o(b)

    def times(self):
        """one or both of the times that are set, by the attributes' numbers"""
        return {a: self.time() for a in self.r.choice([[48], [54], [48, 54], [48, 54]])}

    def only_times(self):
        d = self.times()
        return M(set(d)) + o(b''.join(it for _, it in sorted(d.items())))

    def time(self):
        """the server's time, or one of the client's"""
        r = self.r
        if r.random() < 0.5:
            return u(0)
        return u(1 if r.random() < 0.97 else 2) + I(r.choice(SECONDS)) + u(r.choice(NANOSECONDS if r.random() < 0.93 else TOO_MANY))

    def op(self):
        r = self.r
        n = r.choices([3, 4, 5, 6, 9, 10, 11, 15, 16, 17, 18, 22, 24, 25, 26, 27, 28, 29, 31, 32, 34, 37, 38, 2, 59, 7, 53, 42, 43, 44, 57, 58], [4, 4, 1, 8, 7, 2, 4, 12, 3, 2, 10, 5, 6, 6, 6, 2, 5, 7, 4, 6, 8, 2, 8, 0.2, 0.2, 0.4, 0.2, 0.1, 0.1, 0.1, 0.1, 0.5])[0]
        return self.enc(n)

    def F_at(self, x):
        """attributes as they are, mostly"""
        w = {a for a in self.r.sample([a for a in sorted(self.compared() - {11}) if not MARKED.search(self.s.value(x, a))], 3)}
        b = b''.join((self.s.value(x, a) for a in sorted(w)))
        if self.r.random() < 0.3 and b:
            b = b[:-1] + bytes([b[-1] ^ 1])
        if self.r.random() < 0.05:
            w = w | {11}
        if self.r.random() < 0.05:
            w = w | {14}
        if self.has_times and self.r.random() < 0.04:
            w = w | {self.r.choice([48, 54])}
        return M(w) + o(b)

    def enc(self, n):
        r = self.r
        if n == 3:
            a = u(r.choice([63, 63, 0, 1, 0xffffffff, r.getrandbits(6)]))
        elif n == 4:
            s = self.S()
            a = u(0) + u(s[0]) + s[1]
        elif n == 5:
            a = U(0) + u(0)
        elif n == 6:
            t = r.choice([2, 2, 2, 5, 5, 1, 3, 6, 9, 0, 10] if r.random() < 0.2 else [2, 2, 5])
            a = u(t) + (o(r.choice([b'text', b'', b't' * 1024, b't' * 1025]) if r.random() < 0.2 else b'go/here') if t == 5 else u(1) + u(2) if t in (3, 4) else b'') + o(self.name()) + self.F(0.03)
        elif n == 9:
            a = M(self.want())
        elif n in (10, 16, 24, 27, 31, 32):
            a = b''
        elif n in (11, 15, 28):
            a = o(self.name())
        elif n in (17, 37):
            a = self.F_at(self.s.objs[r.choice(sorted(self.s.objs))])
        elif n == 18:
            how = r.random() < 0.6
            cl = r.choice([0, 0, 0, 0, 0, 0, 0, 4, 4] if r.random() < 0.97 else [1, 2, 7])
            a = u(r.getrandbits(32)) + u(r.choice([1, 2, 3, 3, 0, 4, 0x101]) if r.random() < 0.3 else r.choice([1, 2, 3])) + u(r.choice([0] * 20 + [1, 3, 4])) + U(9) + o(r.choice([b'o1', b'o2', b'']))
            if how and (cl == 0 or r.random() < 0.1):
                md = r.choice([0, 0, 0, 1] if r.random() < 0.97 else [2, 3, 4])
                a += u(1) + u(md) + self.F(0.3)
            else:
                a += u(0)
            a += u(cl) + (o(self.name()) if cl == 0 else b'')
        elif n == 22:
            k = r.choice(sorted(self.s.objs)) if r.random() < 0.9 else r.randint(1, self.s.num + 1)
            a = o(model.as_handle(k)) if r.random() < 0.97 else o(r.choice([b'', b'x' * 16, bytes(15), b'1' * 129]))
        elif n == 25:
            s = self.S()
            a = u(s[0]) + s[1] + U(r.choice(self.reads)) + u(r.choice([0, 1, 10, 4096, 32768, 2 ** 32 - 1]))
        elif n == 26:
            a = U(r.choice([0, 0, 0, 0, 1, 2, 3, 4, 5, 2 ** 64 - 1] + [ck for d in self.s.names.values() for _, ck in d.values()][:6])) + bytes(8) + u(0) + u(r.choice([0, 15, 16, 40, 56, 64, 100, 200, 1000, 60000, 2 ** 32 - 1])) + M(self.want())
        elif n == 29:
            a = o(self.name()) + o(self.name())
        elif n == 34:
            s = self.S()
            a = u(s[0]) + s[1] + (self.only_times() if self.has_times and r.random() < 0.3 else self.F(0.2))
        elif n == 38:
            s = self.S()
            a = u(s[0]) + s[1] + U(r.choice(self.writes)) + u(r.choice([0, 1, 2, 2, 2, 3]) if r.random() < 0.1 else 2) + o(r.choice([b'', b'x', b'hello', b'y' * 100, b'z' * 3000]))
        elif n == 53:
            a = bytes(8) + U(1) + u(1) + u(0) + u(0) + u(0)
        elif n == 42:
            a = bytes(8) + o(b'own') + u(0) + u(0) + u(0)
        elif n == 43:
            a = U(1) + u(1) + u(0) + (u(0) + u(65536) * 3 + u(8) + u(8) + u(0)) * 2 + u(0) + u(0)
        elif n == 44:
            a = bytes(8) + U(1)
        elif n == 57:
            a = U(1)
        elif n == 58:
            a = u(r.choice([0, 1]))
        else:
            a = b''
        if a and r.random() < 0.003:
            a = a[:-4]
        if a and r.random() < 0.003:
            k = r.randrange(len(a))
            other = a[:k] + bytes([a[k] ^ 1 << r.randrange(8)]) + a[k + 1:]
            a = a if not self.has_times and asks_times(n, other) else other
        return u(n) + a

    def open_up(self):
        return (self.enc(24) + b'', u(34) + u(0) + bytes(12) + M({12}) + o(u(1) + u(0) + u(3) + u(model.DEFINED) + o(b'EVERYONE@')))

    def ops(self, most):
        r = self.r
        k = r.choice([1, 2, 3, 4, 5, 6, 8, 10, most])
        k = min(k, most)
        out = []
        x = r.random()
        if x < 0.4:
            out.append(self.enc(24))
        elif x < 0.97:
            out.append(self.enc(22))
        if x < 0.25:
            out += [self.enc(32), self.enc(22)]
        while len(out) < k:
            out.append(self.op())
        return out[:k] if out else [self.op()]

    def cred(self):
        r = self.r
        uid = r.choice(UIDS)
        gid = r.choice(GIDS)
        g = r.sample(GIDS, r.randint(0, 2))
        b = u(0) + o(b'host') + u(uid) + u(gid) + u(len(g)) + b''.join(map(u, g))
        return u(1) + o(b) + u(0) + u(0)

    def call(self, ops, count=None, tag=b'', minor=1, cred=None, xid=None):
        self.last_cred = cred or self.cred()
        return u(self.r.getrandbits(32) if xid is None else xid) + u(0) + u(2) + u(100003) + u(4) + u(1) + self.last_cred + o(tag) + u(minor) + u(len(ops) if count is None else count) + b''.join(ops)

    def chan(self):
        r = self.r
        return u(0) + u(r.choice([65536, 1049620, 8192, 500])) + u(r.choice([65536, 1049480, 4096, 4096, 4095, 8000])) + u(r.choice([65536, 100])) + u(r.choice([16, 8, 64, 0, 3])) + u(r.choice([1, 8, 64, 0, 2])) + u(0)

    def session_call(self):
        r = self.r
        s = self.s
        x = r.random()
        sess = sorted(s.sessions)
        if x < 0.05 or not s.clients:
            e = u(42) + r.choice([b'v' * 8, b'v' * 8, b'w' * 8]) + o(r.choice([b'own1', b'own2', b'own3', b'own%d' % r.randint(4, s.limits['clients'] + 16)])) + u(r.choice([0, 0, 0, 0, 0x80000000, 0x40000000, 0xc0000000, 3])) + u(r.choice([0] * 20 + [1, 3])) + (u(0) if r.random() < 0.8 else u(1) + o(b'd') + o(b'n') + I(5) + u(7))
            return self.call([e])
        if x < 0.12 or not sess:
            n = r.choice(sorted(s.clients)) if r.random() < 0.9 else r.randint(1, s.cnum)
            q = s.clients.get(n)
            sq = ((q['seq'] if q else 0) + r.choice([1, 1, 1, 1, 0, 2])) % 2 ** 32
            e = u(43) + U(n) + u(sq) + u(r.choice([0, 3])) + self.chan() + self.chan() + u(1) + r.choice([u(0), u(1) + u(0), u(1) + u(1) + u(0) + o(b'h') + u(1) + u(1) + u(0)])
            return self.call([e])
        if x < 0.13:
            return self.call([u(44) + bytes(8) + U(r.choice(sess + [s.snum]))])
        if x < 0.14:
            return self.call([u(57) + U(r.randint(1, s.cnum))])
        if x < 0.16:
            return self.call(self.ops(4))
        if x < 0.17:
            return self.call([self.enc(r.choice([42, 43, 44, 57]))] + self.ops(3))
        n = r.choice(sess)
        q = s.sessions[n]
        k = r.randrange(len(q['slots']))
        sl = q['slots'][k]
        if x < 0.24 and sl['used'] and hasattr(self, 'hist') and ((n, k) in self.hist):
            rec, cred = self.hist[n, k]
            if r.random() < 0.8:
                return u(r.getrandbits(32)) + rec[4:]
            rest = rec[24 + len(cred):]
            cr2 = self.cred()
            return u(7) + rec[4:24] + cr2 + rest
        seq = u(53) + bytes(8) + U(n if r.random() < 0.99 else s.snum) + u((sl['last'] + r.choice([1] * 30 + [0, 2])) % 2 ** 32) + u(k if r.random() < 0.98 else r.choice([8, 1, 7])) + u(r.choice([0] * 20 + [len(q['slots']) - 1, 8])) + u(r.choice([0, 1]))
        ops = self.ops(r.choice([q['ops'], q['ops'] + 1]) - 1 if q['ops'] > 1 else 0) if q['ops'] > 1 else []
        if r.random() < 0.02:
            ops.insert(0, u(58) + u(0))
        rec = self.call([seq] + ops, tag=r.choice([b'', b'', b'tag']))
        return rec

    def bare_call(self):
        r = self.r
        return self.call(self.ops(16), tag=r.choice([b'', b'', b'', b'tag', b'\xff']), minor=r.choice([1] * 50 + [0, 2]))


def asks_times(n, a):
    """Whether arguments ask for times, as those of GETATTR or READDIR may by a turned bit."""
    try:
        it = model.read_args(n, Rd(a)) if n in (9, 26) else None
    except model.Short:
        return False
    return bool({52, 53} & (it if n == 9 else it[2] if n == 26 else set()))


def head(rec):
    return u(0x80000000 | len(rec)) + rec


def caller_of(rec):
    r = Rd(rec, 24)
    r.u()
    b = Rd(r.o())
    b.u()
    b.o()
    uid = b.u()
    gid = b.u()
    g = [b.u() for _ in range(b.u())]
    return (uid, frozenset([gid] + g), gid)


def book_of(path):
    with open(path, 'rb') as f:
        b = tomllib.load(f)
    return model.Book(b['domain'], b['users'], b['groups'], b['root_owner'], b['root_group'], b['root_mode'], b.get('members'))


def remember(g, srv, rec, cred):
    """Keeps a call whose results a slot keeps, to make it again."""
    if len(rec) <= 24:
        return
    for k, s in srv.sessions.items():
        for j, sl in enumerate(s['slots']):
            if sl.get('args') is not None and sl['args'] == srv.compared(rec[24 + len(cred):]):
                g.hist[k, j] = (rec, cred)


def opening(g, seed, srv):
    """In three seeds of four the root is opened to all, by its owner, in the first session that takes so many operations."""
    cred = u(1) + o(u(0) + o(b'h') + u(0) + u(0) + u(0)) + u(0) + u(0)
    if g.opened or seed % 4 == 0 or not (srv.bare or srv.sessions):
        return None
    if srv.bare:
        g.opened = True
        return g.call(list(g.open_up()), cred=cred)
    k = min(srv.sessions)
    if srv.sessions[k]['ops'] < 3:
        return None
    g.opened = True
    sl = srv.sessions[k]['slots'][0]
    return g.call([u(53) + bytes(8) + U(k) + u((sl['last'] + 1) % 2 ** 32) + u(0) * 3, *g.open_up()], cred=cred)


def next_call(g, seed, srv):
    """A call, and its credential."""
    rec = opening(g, seed, srv) or (g.bare_call() if srv.bare else g.session_call())
    return rec, g.last_cred


# written calls


def put(number):
    return u(22) + o(model.as_handle(number))


def opening_of(name, owner, size=None):
    """An OPEN for both of a new file, or of the current one where the name is None."""
    attributes = M(set()) + o(b'') if size is None else M({4}) + o(U(size))
    how = u(1) + u(0) + attributes + u(0) + o(name) if name is not None else u(0) + u(4)
    return u(18) + u(0) + u(3) + u(0) + U(1) + o(owner) + how


def edges(srv):
    """Calls up to limits of the profile and one further, each made when the plain program has answered the one before it."""
    g, most = Gen(random.Random(0), srv), srv.limits
    channel = u(0) + u(65536) * 3 + u(16) + u(8) + u(0)
    narrow = u(0) + u(4096) * 3 + u(2) + u(1) + u(0)
    cred = u(1) + o(u(0) + o(b'h') + u(0) + u(0) + u(0)) + u(0) + u(0)
    anyone, root = u(0) + bytes(12), u(24)

    def client(n):
        return g.call([u(42) + bytes(8) + o(b'edge%d' % n) + u(0) * 3], cred=cred)

    def session(n, width):
        return g.call([u(43) + U(n) + u(srv.clients[n]['seq'] + 1) + u(0) + width * 2 + u(0) * 2], cred=cred)

    def call(*ops):
        return g.call([u(53) + bytes(8) + U(1) + u(srv.sessions[1]['slots'][0]['last'] + 1) + u(0) * 3, *ops], cred=cred)

    yield client(1)
    yield session(1, channel)
    yield call(root, opening_of(b'f', b'o'))
    yield from long_files(call, root, anyone, most['file'], {45} & srv.supp)
    for n in range(most['names'] // most['links'] + 1 if most['names'] < 5000 else 1):
        yield call(root, opening_of(b'file%d' % n, b'o'))
        there = put(srv.num - 1)
        for k in range(0, most['links'] + 1, 12):
            yield call(there, u(32), root, *(u(11) + o(b'%d.%d' % (n, k + j)) for j in range(12)))
    for k in range(0, min(most['opens'], 4200) + 1, 14):
        yield call(put(2), *(opening_of(None, b'%d' % (k + j)) for j in range(14)))
    yield call(root, u(26) + U(0) + bytes(8) + u(0) + u(60000) + M({4, 20}))
    for n in range(2, most['clients'] + 2):
        yield client(n)
    for n in range(2, most['sessions'] + 1):
        yield session(n, narrow)
    yield session(2, narrow)
    yield g.call([u(44) + bytes(8) + U(3)], cred=cred)
    yield session(2, narrow)


def long_files(call, root, anyone, most, spaces):
    """Calls on the file 2 up to its greatest size, with holes, and on new files of that size and of one byte more. Those attributes of space are asked too."""
    def write(at, data):
        return u(38) + anyone + U(at) + u(2) + o(data)

    def resize(size):
        return u(34) + anyone + M({4}) + o(U(size))

    said = [u(9) + M({4, 27} | spaces), *(u(25) + anyone + U(at) + u(100) for at in (0, most // 2 - 3, 3 * most // 4, most - 50, most, 2 ** 64 - 1))]
    pieces = ((most // 2, b'middle'), (most - 3, b'end'), (most - 3, b'ends'), (most, b'x'), (most, b''), (2 ** 64 - 1, b'x'), (most - 7000, b'y' * 3000))
    for at, data in pieces:
        yield call(put(2), write(at, data))
        yield call(put(2), *said)
    for size in (most, most + 1, 2 ** 64 - 1, most - 1, most, most // 2 + 3, most, 3, most // 4 + 5):
        yield call(put(2), resize(size))
        yield call(put(2), *said)
    yield call(put(2), write(most // 4 + 2, b'over the end'), *said)
    for name, size in ((b'of most', most), (b'of more', most + 1)):
        yield call(root, opening_of(name, b'o', size), *said)


def run_edges(nfsd, profile, trailfile):
    """The written calls on both, and the trail."""
    srv = model.Server(profile=profile)
    p, port = begun(nfsd, random.Random(), ['--profile', profile, '--connections', '1', '--trail', trailfile])
    counts, ok, moments = {}, True, {}
    with socket.create_connection(('127.0.0.1', port)) as sk, sk.makefile('rb') as rd:
        for i, rec in enumerate(edges(srv)):
            want = srv.record(rec, next(MOMENTS))
            sk.sendall(head(rec))
            count(counts, want)
            ok = ok and is_same(rd, 'edges', i, rec, want, moments)
            if not ok:
                break
    p.kill()
    p.wait()
    return counts, ok and is_same_trail(trailfile, 'edges', srv)


def count(counts, want):
    if len(want) > 28:
        st = int.from_bytes(want[24:28], 'big')
        counts[st] = counts.get(st, 0) + 1


def with_moments(want, got, moments):
    """A reply with the server's moments in the places of marks, each of which stands for one moment."""
    for it in MARKED.finditer(want):
        place, mark = slice(*it.span()), it.group()
        seconds, nanoseconds = struct.unpack('>qI', got[place]) if len(got) == len(want) else (0, 0)
        if BEGUN - 2 <= seconds <= time.time() + 2 and nanoseconds < 10 ** 9:
            moments.setdefault(mark, got[place])
        want = want[:place.start] + moments.get(mark, mark) + want[place.stop:]
    return want


def is_same(rd, seed, i, rec, want, moments):
    """Whether the next reply is this one."""
    got = rd.read(int.from_bytes(rd.read(4), 'big') & 0x7fffffff)
    want = with_moments(want, got, moments)
    if got != want:
        print('seed', seed, 'call', i, 'differs')
        print('call', rec.hex())
        print('want', want.hex())
        print('got ', got.hex())
    return got == want


def is_same_trail(path, seed, srv):
    with open(path) as f:
        lines = f.read().split('\n')[:-1]
    for k, (a, b) in enumerate(zip(lines + [None] * 9, srv.trail + [None] * 9)):
        if a != b:
            print('seed', seed, 'trail line', k, 'file', a, 'model', b)
            break
    return lines == srv.trail


def begun(nfsd, rng, words):
    """A server that listens, and its port; another port where one is taken."""
    while True:
        port = rng.randint(20000, 40000)
        p = subprocess.Popen([nfsd, '--port', str(port), *words], stdout=subprocess.PIPE, stderr=subprocess.DEVNULL)
        if p.stdout.readline():
            return p, port
        p.wait()


def profile_of(words):
    """The profile that `--profile NAME` says, and the other words; None where it says another one."""
    if '--profile' not in words:
        return 'standard', words
    at = words.index('--profile')
    name = ''.join(words[at + 1:at + 2])
    return name if name in model.PROFILES else None, words[:at] + words[at + 2:]


def run(seed, n, nfsd, bare, books, profile, trailfile):
    rng = random.Random(seed)
    srv = model.Server(book_of(books[0]) if books else model.Book(), bare, profile=profile)
    g = Gen(rng, srv)
    g.hist, g.opened = {}, False
    if bare:
        p = subprocess.Popen([nfsd, '--bare'], stdin=subprocess.PIPE, stdout=subprocess.PIPE)
        wr, rd = p.stdin, p.stdout
    else:
        p, port = begun(nfsd, random.Random(), ['--profile', profile, '--connections', '1', '--trail', trailfile] + (['--book', books[0]] if books else []))
        sk = socket.create_connection(('127.0.0.1', port))
        wr, rd = sk.makefile('wb'), sk.makefile('rb')
    counts, moments = {}, {}
    for i in range(n):
        rec, cred = next_call(g, seed, srv)
        want = srv.record(rec, next(MOMENTS))
        wr.write(head(rec))
        wr.flush()
        remember(g, srv, rec, cred)
        count(counts, want)
        if not is_same(rd, seed, i, rec, want, moments):
            p.kill()
            return (counts, False)
    wr.close()
    if not bare:
        rd.close()
        sk.close()
    p.wait()
    return (counts, bare or is_same_trail(trailfile, seed, srv))


def breaks(port):
    """Whether a connection whose first record is too long is closed, without a reply."""
    with socket.create_connection(('127.0.0.1', port)) as sk:
        sk.sendall(u(0x80020001) + b'more')
        return sk.recv(1) == b''


def run_many(seed, n, nfsd, books, profile, trailfile):
    rng = random.Random(seed)
    srv = model.Server(book_of(books[0]) if books else model.Book(), False, profile=profile)
    g = Gen(rng, srv)
    g.hist, g.opened = {}, False
    path = trailfile + '.toml'
    if books:
        shutil.copy(books[0], path)
    p, port = begun(nfsd, random.Random(), ['--profile', profile, '--concurrent', '--trail', trailfile] + (['--book', path] if books else []))
    streams = [socket.create_connection(('127.0.0.1', port)) for _ in range(4)]
    for it in streams:
        it.setsockopt(socket.IPPROTO_TCP, socket.TCP_NODELAY, 1)
    readers = [it.makefile('rb') for it in streams]
    begin = [None] * 4  # for each connection the call of which a part has come: its record, its credential, and the bytes that are left
    counts, i, ok, moments = {}, 0, True, {}
    while i < n and ok:
        if len(books) > 1 and rng.random() < 0.02:
            book = rng.choice(books)
            shutil.copy(book, path + '.new')
            os.replace(path + '.new', path)
            srv.book = book_of(book)
        if rng.random() < 0.005:
            ok = ok and breaks(port)
        at = rng.randrange(4)
        if begin[at]:
            calls, piece = [begin[at][:2]], begin[at][2]
            wants = [srv.record(calls[0][0], next(MOMENTS))]
            remember(g, srv, *calls[0])
            begin[at] = None
        elif rng.random() < 0.2:
            rec, cred = next_call(g, seed, srv)
            cut = rng.randint(1, len(rec) + 3)
            streams[at].sendall(head(rec)[:cut])
            begin[at] = (rec, cred, head(rec)[cut:])
            continue
        else:
            calls, wants, piece = [], [], b''
            for _ in range(rng.choice([1, 1, 1, 2, 3, 8])):
                rec, cred = next_call(g, seed, srv)
                calls.append((rec, cred))
                wants.append(srv.record(rec, next(MOMENTS)))
                remember(g, srv, rec, cred)
                piece += head(rec)
        streams[at].sendall(piece)
        for (rec, _), want in zip(calls, wants):
            count(counts, want)
            ok = ok and is_same(readers[at], seed, i, rec, want, moments)
            i += 1
    p.kill()
    p.wait()
    for it in [*readers, *streams]:
        it.close()
    return (counts, ok and is_same_trail(trailfile, seed, srv))


if __name__ == '__main__':
    profile, words = profile_of(sys.argv[1:])
    is_edges = len(words) == 2 and words[1] == 'edges'
    if profile is None or not is_edges and (len(words) < 5 or words[1] not in ('bare', 'net', 'many') or (words[1], profile) == ('bare', 'office')):
        sys.exit(__doc__)
    nfsd, mode, first, seeds = words[0], words[1], *map(int, (0, 1) if is_edges else words[2:4])
    n, books = 0 if is_edges else int(words[4]), words[5:]
    tot = {}
    bad = 0
    t0 = time.time()
    with tempfile.TemporaryDirectory(prefix='judge-') as folder:
        for s in range(first, first + seeds):
            trail = f'{folder}/{s}'
            if is_edges:
                c, ok = run_edges(nfsd, profile, trail)
            else:
                c, ok = run_many(s, n, nfsd, books, profile, trail) if mode == 'many' else run(s, n, nfsd, mode == 'bare', books, profile, trail)
            bad += not ok
            for k, v in c.items():
                tot[k] = tot.get(k, 0) + v
            if bad > 3:
                break
    inv = {v: k for k, v in model.ST.items()}
    print(seeds, 'seeds of', n or sum(tot.values()), 'calls,', bad, 'differ,', round(time.time() - t0), 's;', {inv.get(k, k): v for k, v in sorted(tot.items())})
    sys.exit(1 if bad else 0)
