"""The server as a plain program in Python: records in, replies out.

It was written from the profile of the protocol alone, by an author who had seen neither the definitions nor the code, and shares nothing with either.
dacl, sacl and a book's members were added later from the same profile, but by an author who knew the definitions and the code. It is slow and simple:
a map of objects, a map of names for each directory, access control lists walked bit by bit. `calls.py` sends random calls to it and to `nfsd`, and
compares the replies byte for byte. A server has the limits of one of the two profiles of docs/profile.md, by PROFILES, and its attributes, by SUPP. The
office profile has times that are set (RFC 8881, sections 5.8.2 and 18.30). They were added later too, from a statement of their rules, by an author who had
seen how the tree's definitions and code keep an object's times. The bytes of a file are a map of the pieces that were written, since under the office profile
a file may have 2^40 bytes.

The letters of the items are those of XDR here: u is a u32, U a u64, I an i64, o variable opaque data, M a bitmap (`bitmap4`), F attributes
(`fattr4`), S a stateid (`stateid4`), H a filehandle.
"""
import struct


def u(n):
    return struct.pack('>I', n)


def U(n):
    return struct.pack('>Q', n)


def I(n):
    return struct.pack('>q', n)


def T(moment):
    return I(moment[0]) + u(moment[1])


def o(b):
    return u(len(b)) + b + bytes(-len(b) % 4)
ST = dict(OK=0, PERM=1, NOENT=2, ACCESS=13, EXIST=17, NOTDIR=20, ISDIR=21, INVAL=22, FBIG=27, NOSPC=28, MLINK=31, NAMETOOLONG=63, NOTEMPTY=66, STALE=70, BADHANDLE=10001, BAD_COOKIE=10003, NOTSUPP=10004, TOOSMALL=10005, BADTYPE=10007, DELAY=10008, SAME=10009, CLID_INUSE=10017, NOFILEHANDLE=10020, MINOR_VERS_MISMATCH=10021, STALE_CLIENTID=10022, OLD_STATEID=10024, BAD_STATEID=10025, NOT_SAME=10027, SYMLINK=10029, ATTRNOTSUPP=10032, BADXDR=10036, OPENMODE=10038, BADOWNER=10039, BADCHAR=10040, BADNAME=10041, OP_ILLEGAL=10044, BADSESSION=10052, BADSLOT=10053, COMPLETE_ALREADY=10054, SEQ_MISORDERED=10063, SEQUENCE_POS=10064, REQ_TOO_BIG=10065, REP_TOO_BIG=10066, REP_TOO_BIG_TO_CACHE=10067, TOO_MANY_OPS=10070, OP_NOT_IN_SESSION=10071, CLIENTID_BUSY=10074, SEQ_FALSE_RETRY=10076, BAD_HIGH_SLOT=10077, NOT_ONLY_OP=10081, WRONG_TYPE=10083)


class Fail(Exception):
    def __init__(self, name):
        self.status = ST[name]
        self.name = name


class Short(Exception):
    pass


def need(cond, name):
    if not cond:
        raise Fail(name)


class Rd:
    def __init__(self, b, at=0):
        self.b = b
        self.at = at

    def take(self, n):
        if self.at + n > len(self.b):
            raise Short()
        r = self.b[self.at:self.at + n]
        self.at += n
        return r

    def u(self):
        return struct.unpack('>I', self.take(4))[0]

    def U(self):
        return struct.unpack('>Q', self.take(8))[0]

    def I(self):
        return struct.unpack('>q', self.take(8))[0]

    def b_(self):
        n = self.u()
        if n > 1:
            raise Short()
        return n == 1

    def o(self, most=None):
        n = self.u()
        if most is not None and n > most:
            raise Short()
        r = self.take(n)
        if any(self.take(-n % 4)):
            raise Short()
        return r

    def M(self):
        n = self.u()
        if n > 8:
            raise Short()
        return set((32 * i + k for i in range(n) for w in [self.u()] for k in range(32) if w >> k & 1))

    def S(self):
        return (self.u(), self.take(12))

    def F(self):
        return (self.M(), self.o())

    def end(self):
        return self.at == len(self.b)


def M(s):
    if not s:
        return u(0)
    n = max(s) // 32 + 1
    return u(n) + b''.join((u(sum((1 << a % 32 for a in s if a // 32 == i))) for i in range(n)))
READ, WRITE, APPEND, EXEC, DELCHILD, RATTR, WATTR, DELETE, RACL, WACL, WOWN = (1, 2, 4, 32, 64, 128, 256, 65536, 0x20000, 0x40000, 0x80000)
DEFINED = 0x1f07ff
OWNER, GROUP, EVERYONE = ('OWNER@', 'GROUP@', 'EVERYONE@')


def who_true(e, ow, gr, c):
    t, f, m, w = e
    if w == OWNER:
        return c[0] == ow
    if w == GROUP:
        return gr in c[1]
    if w == EVERYONE:
        return True
    return w[1] in c[1] if w[0] == 'g' else w[1] == c[0]


def mention(lst, ow, gr, c, bit):
    for i, e in enumerate(lst):
        if e[0] <= 1 and (not e[1] & 8) and e[2] & bit and who_true(e, ow, gr, c):
            return i
    return None


def bits(m):
    return [1 << k for k in range(32) if m >> k & 1]


def judge(lst, ow, gr, c, mask):
    ms = [(b, mention(lst, ow, gr, c, b)) for b in bits(mask)]
    den = [i for b, i in ms if i is not None and lst[i][0] == 1]
    if den:
        return ('entry', min(den))
    mis = [b for b, i in ms if i is None]
    if mis:
        return ('missing', min(mis))
    return None


def mode_of(lst):
    m = 0
    for sh, who in ((6, OWNER), (3, GROUP), (0, EVERYONE)):

        def dec(bit):
            for e in lst:
                if e[0] <= 1 and (not e[1] & 8) and (e[3] in (who, EVERYONE)) and e[2] & bit:
                    return e[0] == 0
            return False
        m |= ((4 if dec(1) else 0) | (2 if dec(2) and dec(4) else 0) | (1 if dec(32) else 0)) << sh
    return m


def set_mode(lst, kind, mode):
    d = kind == 2

    def cls(x):
        return (1 if x & 4 else 0) | ((70 if d else 6) if x & 2 else 0) | (32 if x & 1 else 0)
    al = 0x67 if d else 0x27
    ow, gr, ev = (cls(mode >> 6 & 7), cls(mode >> 3 & 7), cls(mode & 7))
    out = [(0, 0, ow | 0x1e0180, OWNER), (1, 0, al & ~ow, OWNER)]
    for t, f, m, w in lst:
        if t >= 2 or f & 8:
            out.append((t, f, m, w))
        elif w in (OWNER, GROUP, EVERYONE):
            if f & 3:
                out.append((t, f | 8, m, w))
        elif t == 1:
            out.append((t, f, m, w))
        else:
            out.append((t, f, m & ~(al & ~gr), w))
    out += [(0, 0, gr, GROUP), (1, 0, al & ~gr, GROUP), (0, 0, ev | 0x120080, EVERYONE)]
    return out


def inherit(lst, kind):
    out = []
    for t, f, m, w in lst:
        if kind != 2:
            if f & 1:
                out.append((t, f & 0xf0, m, w))
        elif f & 2:
            out.append((t, f & 0xf0 if f & 4 else f & ~8, m, w))
        elif f & 1 and (not f & 4):
            out.append((t, f | 8, m, w))
    return out


def admit(raws, kind):
    need(len(raws) <= 59, 'NOSPC')
    for t, f, m, w in raws:
        need(t <= 3, 'ATTRNOTSUPP')
        need(f <= 255 and (not m & ~DEFINED), 'INVAL')
        need(w is not None, 'BADOWNER')
    if kind == 2:
        return list(raws)
    return [(t, f & 0xf0, m, w) for t, f, m, w in raws if not f & 8]


def kept(e):
    """whether a change of mode keeps an entry"""
    return e[0] >= 2 or e[1] & 11 or e[3] not in (OWNER, GROUP, EVERYONE)


def combine(lst, dacl, sacl):
    d = lst if dacl is None else dacl
    s = lst if sacl is None else sacl
    out = [e for e in d if e[0] <= 1] + [e for e in s if e[0] >= 2]
    need(len(out) <= 64 and sum((1 for e in out if kept(e))) <= 59, 'NOSPC')
    return out


class Book:
    def __init__(self, domain='localdomain', users={}, groups={}, owner=0, group=0, mode=0o755, members=None):
        self.domain = domain
        self.users = users
        self.groups = groups
        self.owner = owner
        self.group = group
        self.mode = mode
        self.members = members

    def member(self, c):
        """the caller with the groups that the book gives it"""
        if self.members is None:
            return c
        names = [k for k, v in self.users.items() if v == c[0]]
        have = {self.groups[g] for g, us in self.members.items() if any((n in us for n in names))}
        return (c[0], frozenset(have), c[2] if c[2] in have else min(have, default=65534))

    def number(self, g, text):
        try:
            s = text.decode('utf-8')
        except UnicodeDecodeError:
            return None
        t = self.groups if g else self.users
        if s.endswith('@' + self.domain) and s[:-len(self.domain) - 1] in t:
            return t[s[:-len(self.domain) - 1]]
        if s and all((ch in '0123456789' for ch in s)) and (s == '0' or s[0] != '0') and (len(s) <= 10) and (int(s) <= 4294967295):
            return int(s)
        return None

    def name(self, g, n):
        t = self.groups if g else self.users
        for k, v in t.items():
            if v == n:
                return (k + '@' + self.domain).encode()
        return str(n).encode()

    def who(self, flags, text):
        for w in (OWNER, GROUP, EVERYONE):
            if text == w.encode():
                return w
        g = bool(flags & 64)
        n = self.number(g, text)
        return None if n is None else ('g' if g else 'u', n)

    def who_text(self, w):
        return w.encode() if isinstance(w, str) else self.name(w[0] == 'g', w[1])


class Obj:
    pass
PIECE = 4096


class Bytes:
    """The bytes of a file or of a link's text: their number, and the pieces that were written, by their place. Whatever no piece has is 0."""

    def __init__(self, data=b''):
        self.size = 0
        self.pieces = {}
        self.write(0, data)

    def copy(self):
        it = Bytes()
        it.size = self.size
        it.pieces = dict(self.pieces)
        return it

    def whole(self, first, last):
        """the pieces from a place on, up to another one"""
        return b''.join(self.pieces.get(k, bytes(PIECE)) for k in range(first, last))

    def read(self, at, n):
        """at most n bytes from a place on"""
        end = min(at + n, self.size)
        if end <= at:
            return b''
        first = at // PIECE
        return self.whole(first, -(-end // PIECE))[at - first * PIECE:end - first * PIECE]

    def write(self, at, data):
        """these bytes from a place on, and zeros from the end up to there"""
        if not data:
            return
        end = at + len(data)
        first = at // PIECE
        last = -(-end // PIECE)
        it = self.whole(first, last)
        it = it[:at - first * PIECE] + data + it[end - first * PIECE:]
        for k in range(first, last):
            self.pieces[k] = it[(k - first) * PIECE:(k - first + 1) * PIECE]
        self.size = max(self.size, end)

    def resize(self, n):
        """cut, or with zeros at the end"""
        k = n // PIECE
        self.pieces = {j: it for j, it in self.pieces.items() if j <= k}
        if n < self.size and k in self.pieces:
            self.pieces[k] = self.pieces[k][:n % PIECE] + bytes(PIECE - n % PIECE)
        self.size = n
# the supported attributes of each profile, by the words of supported_attrs
WORDS = dict(standard=(0xe8183fff, 0x0cb0003a, 0x800), office=(0xe818bfff, 0x0cf9a03a, 0x800))
SUPP = {profile: {n for n in range(96) if words[n // 32] >> n % 32 & 1} for profile, words in WORDS.items()}
SETTABLE = {4, 12, 33, 36, 37, 48, 54, 58, 59}
ONLY_SET = {48, 54}
BY_RATTR = {3, 4, 33, 35, 36, 37, 45, 47, 52, 53}
BY_RACL = {12, 58, 59}
OPS = {3, 4, 5, 6, 9, 10, 11, 15, 16, 17, 18, 22, 24, 25, 26, 27, 28, 29, 31, 32, 34, 37, 38, 42, 43, 44, 53, 57, 58}
NAMES = {3: 'ACCESS', 4: 'CLOSE', 5: 'COMMIT', 6: 'CREATE', 9: 'GETATTR', 10: 'GETFH', 11: 'LINK', 15: 'LOOKUP', 16: 'LOOKUPP', 17: 'NVERIFY', 18: 'OPEN', 22: 'PUTFH', 24: 'PUTROOTFH', 25: 'READ', 26: 'READDIR', 27: 'READLINK', 28: 'REMOVE', 29: 'RENAME', 31: 'RESTOREFH', 32: 'SAVEFH', 34: 'SETATTR', 37: 'VERIFY', 38: 'WRITE'}


def check_name(n):
    need(n, 'INVAL')
    need(len(n) <= 255, 'NAMETOOLONG')
    try:
        n.decode('utf-8')
    except UnicodeDecodeError:
        raise Fail('INVAL')
    need(b'/' not in n and b'\x00' not in n, 'BADCHAR')
    need(n not in (b'.', b'..'), 'BADNAME')


class Quit(Exception):
    pass


def read_args(op, r):
    """Arguments, or raises Short (BADXDR) or Quit (NOTSUPP)."""
    if op == 3:
        return r.u()
    if op == 4:
        r.u()
        return r.S()
    if op == 5:
        r.U()
        r.u()
        return None
    if op == 6:
        t = r.u()
        text = None
        if t == 0 or t > 9:
            raise Short()
        if t == 5:
            text = r.o()
        if t in (3, 4):
            r.u()
            r.u()
        return (t, text, r.o(), r.F())
    if op == 9:
        return r.M()
    if op in (10, 16, 24, 27, 31, 32):
        return None
    if op in (11, 15, 28):
        return r.o()
    if op in (17, 37):
        return r.F()
    if op == 18:
        r.u()
        acc = r.u()
        deny = r.u()
        r.U()
        own = r.o(1024)
        how = r.u()
        if how > 1:
            raise Short()
        mode = None
        F = None
        if how == 1:
            mode = r.u()
            if mode in (2, 3):
                raise Quit()
            if mode > 3:
                raise Short()
            F = r.F()
        claim = r.u()
        if claim in (1, 2, 3, 5, 6):
            raise Quit()
        if claim > 6:
            raise Short()
        return (acc, deny, own, mode, F, r.o() if claim == 0 else None)
    if op == 22:
        return r.o(128)
    if op == 25:
        return (r.S(), r.U(), r.u())
    if op == 26:
        c = r.U()
        r.take(8)
        r.u()
        return (c, r.u(), r.M())
    if op == 29:
        return (r.o(), r.o())
    if op == 34:
        return (r.S(), r.F())
    if op == 38:
        s = r.S()
        off = r.U()
        if r.u() > 2:
            raise Short()
        return (s, off, r.o())
    if op == 42:
        ver = r.take(8)
        own = r.o(1024)
        fl = r.u()
        p = r.u()
        if p in (1, 2):
            raise Quit()
        if p > 2:
            raise Short()
        n = r.u()
        if n > 1:
            raise Short()
        if n:
            r.o()
            r.o()
            r.I()
            r.u()
        return (ver, own, fl)
    if op == 43:
        cl = r.U()
        sq = r.u()
        fl = r.u()
        K = []
        for _ in range(2):
            k = [r.u() for _ in range(6)]
            n = r.u()
            if n > 1:
                raise Short()
            for _ in range(n):
                r.u()
            K.append(k)
        r.u()
        n = r.u()
        if n > 8:
            raise Short()
        for _ in range(n):
            f = r.u()
            if f == 0:
                pass
            elif f == 1:
                r.u()
                r.o(255)
                r.u()
                r.u()
                g = r.u()
                if g > 16:
                    raise Short()
                for _ in range(g):
                    r.u()
            elif f == 6:
                r.u()
                r.o()
                r.o()
            else:
                raise Short()
        return (cl, sq, K, fl)
    if op == 44:
        return r.take(16)
    if op == 53:
        return (r.take(16), r.u(), r.u(), r.u(), r.b_())
    if op == 57:
        return r.U()
    if op == 58:
        return r.b_()
    raise AssertionError(op)


def as_handle(n):
    return bytes(8) + U(n)
CHG = lambda a, b: u(1) + U(a) + U(b)
ANON = bytes(12)
BYPASS = b'\xff' * 12
# the limits of each profile: docs/profile.md, "The two profiles"
PROFILES = dict(
    standard=dict(clients=64, sessions=64, opens=4096, objects=16384, names=4096, links=1000, file=1048576),
    office=dict(clients=256, sessions=256, opens=65536, objects=1048576, names=1048576, links=32767, file=2 ** 40),
)


class Server:
    def __init__(self, book=None, bare=False, lasting=False, profile='standard'):
        self.profile = profile
        self.limits = PROFILES[profile]
        self.supp = SUPP[profile]
        self.book = book or Book()
        self.bare = bare
        self.lasting = lasting
        self.objs = {}
        self.names = {}
        self.num = 1
        self.tick = 1
        self.stamp = 1
        self.cookie = 3
        self.opens = {}
        self.onum = 1
        self.trail = []
        self.total = 0
        self.clients = {}
        self.sessions = {}
        self.cnum = 1
        self.snum = 1
        b = self.book
        self.make(2, b.owner if not bare else 0, b.group if not bare else 0, set_mode([], 2, (b.mode if not bare else 0o755) & 0o777), b.mode & 0o7000 if not bare else 0, (0, 0), None)
        if bare:
            for name, kind, ow, gr, mode, data in ((b'notes', 1, 1001, 100, 0o640, b'hi'), (b'pub', 2, 0, 0, 0o777, b'')):
                x = self.make(kind, ow, gr, set_mode([], kind, mode), 0, (0, 0), data)
                self.names[1][name] = (x.n, self.cookie)
                self.cookie += 1
                x.up = 1

    def make(self, kind, ow, gr, lst, high, now, data):
        x = Obj()
        x.n = self.num
        self.num += 1
        x.kind = kind
        x.ow = ow
        x.gr = gr
        x.lst = lst
        x.high = high
        x.tm = x.tc = now
        x.ta = now if 47 in self.supp else None
        x.change = self.tick
        self.tick += 1
        x.data = Bytes(data or b'')
        x.up = 0
        x.links = 1
        self.objs[x.n] = x
        if kind == 2:
            self.names[x.n] = {}
        return x

    def line(self, s):
        self.trail.append(s)
        self.total += 1

    def watch(self, x, mask, c, op, ok):
        for i, (t, f, m, w) in enumerate(x.lst):
            if t >= 2 and (not f & 8) and m & mask and f & (16 if ok else 32) and who_true(x.lst[i], x.ow, x.gr, c):
                self.line(f"{('AUDIT' if t == 2 else 'ALARM')} uid={c[0]} op={NAMES[op]} obj={x.n} mask={m & mask:08x} {('granted' if ok else 'refused')} entry={i}")

    def deny(self, x, mask, c, op, why):
        self.line(f'DENY uid={c[0]} op={NAMES[op]} obj={x.n} mask={mask:08x} ' + (f'entry={why[1]}' if why[0] == 'entry' else f'missing={why[1]:08x}'))

    def bits(self, x, mask, c, op):
        if not mask:
            return
        v = judge(x.lst, x.ow, x.gr, c, mask)
        self.watch(x, mask, c, op, v is None)
        if v:
            self.deny(x, mask, c, op, v)
            raise Fail('ACCESS')

    def removal(self, p, t, c, op):
        mt = mention(t.lst, t.ow, t.gr, c, DELETE)
        mp = mention(p.lst, p.ow, p.gr, c, DELCHILD)
        both = mt is None and mp is None
        va = judge(p.lst, p.ow, p.gr, c, 2) if both else None
        ok = mt is not None and t.lst[mt][0] == 0 or (mp is not None and p.lst[mp][0] == 0) or (both and va is None)
        self.watch(t, DELETE, c, op, ok)
        self.watch(p, DELCHILD | (2 if both else 0), c, op, ok)
        if ok:
            return
        if mp is not None and p.lst[mp][0] == 1:
            self.deny(p, DELCHILD, c, op, ('entry', mp))
        elif mt is not None and t.lst[mt][0] == 1:
            self.deny(t, DELETE, c, op, ('entry', mt))
        else:
            self.deny(p, 2, c, op, va)
        raise Fail('ACCESS')

    def grants(self, x, c, mask):
        return all((judge(x.lst, x.ow, x.gr, c, b) is None for b in bits(mask)))

    def raws(self, lst):
        return u(len(lst)) + b''.join((u(t) + u(f) + u(m) + o(self.book.who_text(w)) for t, f, m, w in lst))

    def value(self, x, a, err=0):
        if a == 0:
            return M(self.supp)
        if a == 1:
            return u(x.kind)
        if a == 2:
            return u(0)
        if a == 3:
            return U(x.change)
        if a == 4:
            return U(x.data.size)
        if a in (5, 6, 9):
            return u(1)
        if a == 7:
            return u(0)
        if a == 8:
            return U(1) + U(0)
        if a == 10:
            return u(90)
        if a == 11:
            return u(err)
        if a == 12:
            return self.raws(x.lst)
        if a in (58, 59):
            return u(0) + self.raws([e for e in x.lst if (e[0] >= 2) == (a == 59)])
        if a == 13:
            return u(15)
        if a == 15:
            return u(1)
        if a == 19:
            return o(as_handle(x.n))
        if a in (20, 55):
            return U(x.n)
        if a == 27:
            return U(self.limits['file'])
        if a == 29:
            return u(255)
        if a == 30:
            return U(32768)
        if a == 31:
            return U(61440)
        if a == 33:
            return u(x.high | mode_of(x.lst))
        if a == 35:
            return u(x.links)
        if a == 36:
            return o(self.book.name(False, x.ow))
        if a == 37:
            return o(self.book.name(True, x.gr))
        if a == 45:
            return U(-(-x.data.size // 4096) * 4096 if x.kind == 1 else 4096)
        if a == 47:
            return T(x.tm if x.ta is None else x.ta)
        if a == 51:
            return T((0, 1))
        if a == 52:
            return T(x.tc)
        if a == 53:
            return T(x.tm)
        if a == 75:
            return u(0)
        raise AssertionError(a)

    def attrs(self, x, want, err=0):
        s = want & self.supp
        return M(s) + o(b''.join((self.value(x, a, err) for a in sorted(s))))

    def given(self, F, kind):
        """attributes to be set: {4: size, 12: list, 33: mode, 36: uid, 37: gid, 48: time of access, 54: time of change, 58: dacl, 59: sacl}

        A time is None where it is the server's.
        """
        s, data = F
        need(s <= self.supp, 'ATTRNOTSUPP')
        need(s <= SETTABLE, 'INVAL')
        r = Rd(data)
        raw = {}
        try:
            for a in sorted(s):
                if a == 4:
                    raw[4] = r.U()
                elif a in (12, 58, 59):
                    fl = r.u() if a != 12 else 0
                    raw[a] = (fl, [(r.u(), r.u(), r.u(), r.o()) for _ in range(self.count(r))])
                elif a == 33:
                    raw[33] = r.u()
                elif a in (48, 54):
                    raw[a] = (r.I(), r.u()) if r.b_() else None
                else:
                    raw[a] = r.o()
            if not r.end():
                raise Short()
        except Short:
            raise Fail('BADXDR')
        need(12 not in raw or not {58, 59} & raw.keys(), 'INVAL')
        got = {}
        if 4 in raw:
            got[4] = raw[4]
        if 12 in raw:
            got[12] = self.admitted(raw[12], kind)
        if 33 in raw:
            need(raw[33] <= 0o7777, 'INVAL')
            got[33] = raw[33]
        for a in (36, 37):
            if a in raw:
                got[a] = self.book.number(a == 37, raw[a])
                need(got[a] is not None, 'BADOWNER')
        for a in (48, 54):
            if a in raw:
                need(raw[a] is None or raw[a][1] < 10 ** 9, 'INVAL')
                got[a] = raw[a]
        for a in (58, 59):
            if a in raw:
                got[a] = self.admitted(raw[a], kind)
                need(all(((e[0] >= 2) == (a == 59) for e in got[a])), 'INVAL')
        return got

    def admitted(self, raw, kind):
        need(not raw[0], 'ATTRNOTSUPP')
        return admit([(t, f, m, self.book.who(f, w)) for t, f, m, w in raw[1]], kind)

    def count(self, r):
        n = r.u()
        if n * 16 > len(r.b) - r.at:
            raise Short()
        return n

    def born(self, p, kind, got):
        if 58 in got:
            return (combine([], got[58], got.get(59)), got.get(33, 0) & 0o7000)
        if 59 in got:
            lst, high = self.born(p, kind, {k: v for k, v in got.items() if k != 59})
            return (combine(lst, None, got[59]), high)
        if 12 in got and 33 in got:
            return (got[12], got[33] & 0o7000)
        if 12 in got:
            return (got[12], 0)
        if 33 in got:
            return (set_mode(inherit(p.lst, kind), kind, got[33] & 0o777), got[33] & 0o7000)
        l = inherit(p.lst, kind)
        return (l or set_mode([], kind, 0o700 if kind == 2 else 0o600), 0)

    def drop(self, x):
        del self.objs[x.n]
        self.names.pop(x.n, None)
        for k in [k for k, op in self.opens.items() if op['obj'] == x.n]:
            del self.opens[k]

    def touch(self, x, t, now, both=True):
        x.change = t
        x.tc = now
        if both:
            x.tm = now

    def cur(self):
        need(self.fh is not None, 'NOFILEHANDLE')
        need(self.fh in self.objs, 'STALE')
        return self.objs[self.fh]

    def sav(self):
        need(self.sfh is not None, 'NOFILEHANDLE')
        need(self.sfh in self.objs, 'STALE')
        return self.objs[self.sfh]

    def isdir(self, x):
        need(x.kind == 2, 'NOTDIR')

    def isfile(self, x):
        need(x.kind != 2, 'ISDIR')
        need(x.kind == 1, 'SYMLINK')

    def state(self, S, x, bit, cl):
        seq, oth = S
        if seq == 0 and oth == ANON or (seq == 4294967295 and oth == BYPASS):
            return
        op = self.open_of(S, x, cl)
        need(op['acc'] & bit, 'OPENMODE')

    def open_of(self, S, x, cl):
        seq, oth = S
        n = struct.unpack('>Q', oth[4:])[0]
        need(oth[:4] == bytes(4) and n in self.opens, 'BAD_STATEID')
        op = self.opens[n]
        need(op['cl'] == cl and op['obj'] == x.n, 'BAD_STATEID')
        if seq:
            need(seq >= op['seq'], 'OLD_STATEID')
            need(seq <= op['seq'], 'BAD_STATEID')
        return op

    def attr_rows(self, want):
        return (RATTR if want & self.supp & BY_RATTR else 0, RACL if want & self.supp & BY_RACL else 0)

    def readable(self, want):
        need(not want & self.supp & ONLY_SET, 'INVAL')

    def compound(self, args, reclen, caller, now):
        """Gives the results' bytes (status, tag, count, results), or None for garbage."""
        r = Rd(args)
        try:
            tag = r.o(1024)
            minor = r.u()
            count = r.u()
        except Short:
            return None
        if minor != 1:
            return u(10021) + o(tag) + u(0)
        if self.bare and count > 16:
            return u(10070) + o(tag) + u(0)
        if count == 0:
            return u(0) + o(tag) + u(0)
        self.fh = self.sfh = None
        self.now = now
        self.c = self.book.member(caller)
        self.sent = caller
        self.cl = 0
        self.cache = False
        self.limit = 65536
        self.args = args
        self.reclen = reclen
        self.count_ = count
        self.keep = None
        self.again = None
        out = []
        size = 24 + 4 + len(o(tag)) + 4
        status = 0
        self.insess = self.bare
        self.first = True
        for i in range(count):
            self.used = size + sum(map(len, out))
            self.i = i
            status, res = self.one(r)
            if self.again is not None:
                return self.again
            out.append(res)
            self.first = False
            if status:
                break
        rep = u(status) + o(tag) + u(len(out)) + b''.join(out)
        if self.keep is not None:
            self.keep['rep'] = rep
            self.keep['args'] = self.compared(args)
            self.keep['caller'] = caller
        return rep

    def compared(self, args):
        """the bytes that a repeat has to have: without sa_highest_slotid where sessions outlive a restart"""
        if not self.lasting:
            return args
        at = 4 + int.from_bytes(args[:4], 'big') + -int.from_bytes(args[:4], 'big') % 4
        return args[:at + 36] + args[at + 40:]

    def one(self, r):
        try:
            n = r.u()
        except Short:
            return (ST['BADXDR'], u(10044) + u(ST['BADXDR']))
        if n < 3 or n > 58:
            return (ST['OP_ILLEGAL'], u(10044) + u(ST['OP_ILLEGAL']))
        if n not in OPS:
            return (ST['NOTSUPP'], u(n) + u(ST['NOTSUPP']))
        tail = u(0) if n == 34 else b''
        try:
            try:
                a = read_args(n, r)
            except Short:
                raise Fail('BADXDR')
            except Quit:
                raise Fail('NOTSUPP')
            lone = False
            if self.bare:
                need(n not in (42, 43, 44, 53, 57, 58), 'NOTSUPP')
            elif self.first:
                if n in (42, 43, 44, 57):
                    need(self.count_ == 1, 'NOT_ONLY_OP')
                    lone = True
                else:
                    need(n == 53, 'OP_NOT_IN_SESSION')
                    lone = True
            else:
                need(n not in (42, 43, 44, 57), 'NOT_ONLY_OP')
                need(n != 53, 'SEQUENCE_POS')
            self.room = self.limit - 16 - self.used
            if not lone:
                need(self.room >= 256, 'REP_TOO_BIG_TO_CACHE' if self.cache else 'REP_TOO_BIG')
            res = getattr(self, 'op%d' % n)(a)
            return (0, u(n) + u(0) + res)
        except Fail as f:
            return (f.status, u(n) + u(f.status) + tail)

    def toobig(self):
        raise Fail('REP_TOO_BIG_TO_CACHE' if self.cache else 'REP_TOO_BIG')

    def op24(self, a):
        self.fh = 1
        return b''

    def op22(self, a):
        need(len(a) == 16 and a[:8] == bytes(8), 'BADHANDLE')
        n = struct.unpack('>Q', a[8:])[0]
        need(n in self.objs, 'STALE')
        self.fh = n
        return b''

    def op10(self, a):
        return o(as_handle(self.cur().n))

    def op32(self, a):
        self.sfh = self.cur().n
        return b''

    def op31(self, a):
        self.fh = self.sav().n
        return b''

    def op3(self, a):
        x = self.cur()
        c = self.c
        tab = {2: [(1, 1), (2, EXEC), (4, 2), (8, 4), (16, DELCHILD)], 1: [(1, 1), (4, 2), (8, 4), (32, EXEC)], 5: [(1, 1)]}[x.kind]
        s = sum((b for b, m in tab if a & b))
        g = sum((b for b, m in tab if a & b and self.grants(x, c, m)))
        return u(s) + u(g)

    def op15(self, a):
        x = self.cur()
        need(x.kind != 5, 'SYMLINK')
        self.isdir(x)
        check_name(a)
        self.bits(x, EXEC, self.c, 15)
        need(a in self.names[x.n], 'NOENT')
        self.fh = self.names[x.n][a][0]
        return b''

    def op16(self, a):
        x = self.cur()
        need(x.kind != 5, 'SYMLINK')
        self.isdir(x)
        self.bits(x, EXEC, self.c, 16)
        need(x.n != 1, 'NOENT')
        self.fh = x.up
        return b''

    def op26(self, a):
        cookie, maxc, want = a
        x = self.cur()
        self.isdir(x)
        need(cookie not in (1, 2), 'BAD_COOKIE')
        self.readable(want)
        self.bits(x, 1, self.c, 26)
        ents = sorted(((ck, nm, ch) for nm, (ch, ck) in self.names[x.n].items() if ck > cookie))
        lim = min(maxc, self.room - 8)
        out = b''
        k = 0
        eof = True
        for ck, nm, ch in ents:
            y = self.objs[ch]
            ra, rl = self.attr_rows(want)
            err = 0
            w = set(want)
            for m, gone in ((ra, BY_RATTR), (rl, BY_RACL)):
                if m and (not self.grants(y, self.c, m)):
                    if 11 not in want:
                        self.bits(y, m, self.c, 26)
                    err = 13
                    w -= gone
            e = u(1) + U(ck) + o(nm) + self.attrs(y, w, err)
            if 8 + len(out) + len(e) + 8 > lim:
                eof = False
                break
            out += e
            k += 1
        if ents and (not k):
            raise Fail('TOOSMALL')
        if not ents and lim < 16:
            raise Fail('TOOSMALL')
        return bytes(8) + out + u(0) + u(1 if eof else 0)

    def op25(self, a):
        S, off, cnt = a
        x = self.cur()
        self.isfile(x)
        self.state(S, x, 1, self.cl)
        self.bits(x, 1, self.c, 25)
        n = min(cnt, 32768, (self.room - 16) // 4 * 4)
        d = x.data.read(off, n)
        return u(1 if off + len(d) >= x.data.size else 0) + o(d)

    def op27(self, a):
        x = self.cur()
        need(x.kind == 5, 'WRONG_TYPE')
        self.bits(x, 1, self.c, 27)
        text = o(x.data.read(0, x.data.size))
        if 8 + len(text) > self.room:
            self.toobig()
        return text

    def op38(self, a):
        S, off, d = a
        x = self.cur()
        self.isfile(x)
        self.state(S, x, 2, self.cl)
        n = x.data.size
        mask = 2 if not d else 4 if off == n else 2 if off + len(d) <= n else 6
        self.bits(x, mask, self.c, 38)
        if d:
            need(off + len(d) <= self.limits['file'], 'FBIG')
            x.data.write(off, d)
            t = self.tick
            self.tick += 1
            self.touch(x, t, self.now)
        return u(len(d)) + u(2) + bytes(8)

    def op5(self, a):
        self.isfile(self.cur())
        return bytes(8)

    def op4(self, S):
        x = self.cur()
        op = self.open_of(S, x, self.cl)
        del self.opens[op['n']]
        return u(4294967295) + bytes(12)

    def op9(self, want):
        x = self.cur()
        self.readable(want)
        ra, rl = self.attr_rows(want)
        self.bits(x, ra | rl, self.c, 9)
        F = self.attrs(x, want)
        if 8 + len(F) > self.room:
            self.toobig()
        return F

    def same(self, F, n):
        x = self.cur()
        s, d = F
        need(s <= self.supp, 'ATTRNOTSUPP')
        need(not s & {11, *ONLY_SET}, 'INVAL')
        ra, rl = self.attr_rows(s)
        self.bits(x, ra | rl, self.c, n)
        return d == b''.join((self.value(x, a) for a in sorted(s)))

    def op37(self, F):
        need(self.same(F, 37), 'NOT_SAME')
        return b''

    def op17(self, F):
        need(not self.same(F, 17), 'SAME')
        return b''

    def op34(self, a):
        S, F = a
        x = self.cur()
        got = self.given(F, x.kind)
        if 4 in got:
            need(x.kind == 1, 'INVAL')
            self.state(S, x, 2, self.cl)
        times = [got[a] for a in (48, 54) if a in got]
        mask = (2 | (4 if got[4] > x.data.size else 0) if 4 in got else 0) | (WACL if {12, 33, 58, 59} & got.keys() else 0) | (WOWN if {36, 37} & got.keys() else 0)
        self.bits(x, mask | (WATTR if any(it is not None for it in times) else 0), self.c, 34)
        if times and all(it is None for it in times):
            held = [m for m in (WATTR, WRITE) if judge(x.lst, x.ow, x.gr, self.c, m) is None]
            self.bits(x, held[0] if held else WATTR, self.c, 34)
        if 4 in got:
            need(got[4] <= self.limits['file'], 'FBIG')
        lst = x.lst
        if 12 in got:
            lst = got[12]
        elif 33 in got:
            lst = set_mode(lst, x.kind, got[33] & 0o777)
        if {58, 59} & got.keys():
            lst = combine(lst, got.get(58), got.get(59))
        if got:
            t = self.tick
            self.tick += 1
            x.change = t
            x.tc = self.now
            x.lst = lst
            if 33 in got:
                x.high = got[33] & 0o7000
            if 36 in got:
                x.ow = got[36]
            if 37 in got:
                x.gr = got[37]
            if 4 in got:
                x.tm = self.now
                x.data.resize(got[4])
            self.set_times(x, got)
        return M(set(got))

    def set_times(self, x, got):
        if 48 in got:
            x.ta = self.now if got[48] is None else got[48]
        if 54 in got:
            x.tm = self.now if got[54] is None else got[54]

    def perm(self, got):
        need(36 not in got or got[36] == self.c[0], 'PERM')
        need(37 not in got or got[37] in self.c[1], 'PERM')

    def full(self, p):
        need(len(self.names[p.n]) < self.limits['names'], 'NOSPC')

    def add(self, p, name, kind, got, data):
        lst, high = self.born(p, kind, got)
        old = p.change
        x = self.make(kind, self.c[0], got.get(37, self.c[2]), lst, high, self.now, data)
        self.set_times(x, got)
        self.names[p.n][name] = (x.n, self.cookie)
        self.cookie += 1
        x.up = p.n
        self.touch(p, x.change, self.now)
        return (x, CHG(old, p.change))

    def op6(self, a):
        typ, text, name, F = a
        p = self.cur()
        self.isdir(p)
        need(typ in (2, 5), 'BADTYPE')
        check_name(name)
        if typ == 5:
            need(text, 'INVAL')
            need(len(text) <= 1024, 'NAMETOOLONG')
        got = self.given(F, typ)
        need(4 not in got, 'INVAL')
        self.bits(p, EXEC | (2 if typ == 5 else 4), self.c, 6)
        need(name not in self.names[p.n], 'EXIST')
        self.perm(got)
        self.full(p)
        need(len(self.objs) < self.limits['objects'], 'NOSPC')
        x, C = self.add(p, name, typ, got, text)
        self.fh = x.n
        return C + M(set(got))

    def op18(self, a):
        acc, deny, own, mode, F, name = a
        x = self.cur()
        if name is not None:
            self.isdir(x)
        else:
            self.isfile(x)
        need(acc & 255 in (1, 2, 3), 'INVAL')
        acc &= 255
        if deny:
            raise Fail('NOTSUPP' if deny <= 3 else 'INVAL')
        if name is None:
            need(mode is None, 'INVAL')
        got = {}
        if name is not None:
            check_name(name)
            if mode is not None:
                got = self.given(F, 1)
            self.bits(x, EXEC, self.c, 18)
            kid = self.names[x.n].get(name)
            y = self.objs[kid[0]] if kid else None
            if y is None:
                need(mode is not None, 'NOENT')
            else:
                need(mode != 1, 'EXIST')
                need(y.kind != 2, 'ISDIR')
                need(y.kind == 1, 'SYMLINK')
        else:
            y = x
        trunc = y is not None and got.get(4) == 0 and (mode == 0)
        if y is not None:
            self.bits(y, (1 if acc & 1 else 0) | (4 if acc & 2 else 0) | (2 if trunc else 0), self.c, 18)
            joined = [op for op in self.opens.values() if op['cl'] == self.cl and op['own'] == own and (op['obj'] == y.n)]
        else:
            self.bits(x, 2, self.c, 18)
            self.perm(got)
            need(got.get(4, 0) <= self.limits['file'], 'FBIG')
            self.full(x)
            need(len(self.objs) < self.limits['objects'], 'NOSPC')
            joined = []
        if not joined:
            need(len(self.opens) < self.limits['opens'], 'NOSPC')
        C = CHG(x.change, x.change) if name is not None else CHG(0, 0)
        B = M(set())
        if y is None:
            y, C = self.add(x, name, 1, got, b'')
            y.data.resize(got.get(4, 0))
            B = M(set(got))
        elif trunc:
            t = self.tick
            self.tick += 1
            y.data = Bytes()
            self.touch(y, t, self.now)
            B = M({4})
        if joined:
            op = joined[0]
            op['acc'] |= acc
            op['seq'] = op['seq'] % 4294967295 + 1
        else:
            op = dict(n=self.onum, cl=self.cl, own=own, obj=y.n, acc=acc, seq=1)
            self.opens[self.onum] = op
            self.onum += 1
        self.fh = y.n
        return u(op['seq']) + bytes(4) + U(op['n']) + C + u(0) + B + u(0)

    def op11(self, name):
        p = self.cur()
        x = self.sav()
        self.isdir(p)
        need(x.kind != 2, 'ISDIR')
        check_name(name)
        self.bits(p, EXEC | 2, self.c, 11)
        need(name not in self.names[p.n], 'EXIST')
        need(x.links < self.limits['links'], 'MLINK')
        self.full(p)
        t = self.tick
        self.tick += 1
        old = p.change
        self.names[p.n][name] = (x.n, self.cookie)
        self.cookie += 1
        x.links += 1
        self.touch(x, t, self.now, False)
        self.touch(p, t, self.now)
        return CHG(old, t)

    def lose(self, y, t):
        if y.kind == 2 or y.links == 1:
            self.drop(y)
        else:
            y.links -= 1
            self.touch(y, t, self.now, False)

    def op28(self, name):
        p = self.cur()
        self.isdir(p)
        check_name(name)
        self.bits(p, EXEC, self.c, 28)
        need(name in self.names[p.n], 'NOENT')
        y = self.objs[self.names[p.n][name][0]]
        self.removal(p, y, self.c, 28)
        need(y.kind != 2 or not self.names[y.n], 'NOTEMPTY')
        t = self.tick
        self.tick += 1
        old = p.change
        del self.names[p.n][name]
        self.lose(y, t)
        self.touch(p, t, self.now)
        return CHG(old, t)

    def op29(self, a):
        on, nn = a
        d = self.cur()
        s = self.sav()
        self.isdir(d)
        self.isdir(s)
        check_name(on)
        check_name(nn)
        self.bits(s, EXEC, self.c, 29)
        if d is not s:
            self.bits(d, EXEC, self.c, 29)
        need(on in self.names[s.n], 'NOENT')
        x = self.objs[self.names[s.n][on][0]]
        y = self.objs[self.names[d.n][nn][0]] if nn in self.names[d.n] else None
        if y is x:
            return CHG(s.change, s.change) + CHG(d.change, d.change)
        if x.kind == 2:
            w = d
            while True:
                need(w is not x, 'INVAL')
                if w.n == 1:
                    break
                w = self.objs[w.up]
        if y is not None:
            need(x.kind != 2 and y.kind != 2 or (x.kind == 2 and y.kind == 2 and (not self.names[y.n])), 'EXIST')
        self.removal(s, x, self.c, 29)
        self.bits(d, 4 if x.kind == 2 else 2, self.c, 29)
        if y is not None:
            self.removal(d, y, self.c, 29)
        if d is not s and y is None:
            self.full(d)
        t = self.tick
        self.tick += 1
        so, do = (s.change, d.change)
        del self.names[s.n][on]
        if y is not None:
            del self.names[d.n][nn]
            self.lose(y, t)
        self.names[d.n][nn] = (x.n, self.cookie)
        self.cookie += 1
        if x.kind == 2:
            x.up = d.n
        self.touch(x, t, self.now, False)
        self.touch(s, t, self.now)
        self.touch(d, t, self.now)
        return CHG(so, t) + CHG(do, t)

    def drop_client(self, n):
        del self.clients[n]
        for k in [k for k, s in self.sessions.items() if s['cl'] == n]:
            del self.sessions[k]
        for k in [k for k, q in self.opens.items() if q['cl'] == n]:
            del self.opens[k]

    def op42(self, a):
        ver, own, fl = a
        need(not fl & 0x80000000, 'INVAL')
        need(not fl & 0x40000000, 'NOTSUPP')
        conf = [n for n, r in self.clients.items() if r['own'] == own and r['conf']]
        unc = [n for n, r in self.clients.items() if r['own'] == own and (not r['conf'])]
        gone = []
        if conf:
            n = conf[0]
            r = self.clients[n]
            if r['uid'] != self.c[0]:
                need(not any((q['cl'] == n for q in self.opens.values())), 'CLID_INUSE')
                gone.append(n)
                conf = []
            elif r['ver'] == ver:
                for k in unc:
                    self.drop_client(k)
                return self.eid(n, 0x80010000)
        gone += unc
        need(len(self.clients) - len(gone) < self.limits['clients'], 'NOSPC')
        for k in gone:
            self.drop_client(k)
        n = self.cnum
        self.cnum += 1
        self.clients[n] = dict(own=own, ver=ver, uid=self.c[0], conf=False, seq=0, kept=None, acc=0, done=False)
        return self.eid(n, 65536)

    def eid(self, n, fl):
        r = self.clients[n]
        return U(n) + u((r['seq'] + 1) % 2 ** 32) + u(fl) + u(0) + U(0) + o(b'nfs41-lists') + o(b'nfs41-lists') + u(0)

    def op43(self, a):
        cl, sq, (F, B), fl = a
        need(cl in self.clients, 'STALE_CLIENTID')
        r = self.clients[cl]
        if r['kept'] is not None and sq == r['seq']:
            st, res = r['kept']
            if st:
                raise Fail(st)
            return res
        need(sq == (r['seq'] + 1) % 2 ** 32, 'SEQ_MISORDERED')
        try:
            need(r['conf'] or self.c[0] == r['uid'], 'CLID_INUSE')
            need(F[2] >= 4096, 'TOOSMALL')
            need(len(self.sessions) < self.limits['sessions'], 'NOSPC')
        except Fail as f:
            r['seq'] = sq
            r['kept'] = (f.name, None)
            raise
        if not r['conf']:
            for k in [k for k, q in self.clients.items() if q['own'] == r['own'] and q['conf']]:
                self.drop_client(k)
            r['conf'] = True
        n = self.snum
        self.snum += 1
        req = min(F[1], 65536)
        rep = min(F[2], 65536)
        ops = max(1, min(F[4], 16))
        slots = max(1, min(F[5], 8))
        self.sessions[n] = dict(cl=cl, req=req, rep=rep, ops=ops, slots=[dict(last=0, used=False) for _ in range(slots)])
        res = bytes(8) + U(n) + u(sq) + u(fl & 1 if self.lasting else 0) + u(0) + u(req) + u(rep) + u(rep) + u(ops) + u(slots) + u(0) + b''.join(map(u, B)) + u(0)
        r['seq'] = sq
        r['kept'] = (None, res)
        return res

    def sess(self, sid):
        n = struct.unpack('>Q', sid[8:])[0]
        need(sid[:8] == bytes(8) and n in self.sessions, 'BADSESSION')
        return n

    def op44(self, sid):
        del self.sessions[self.sess(sid)]
        return b''

    def op57(self, cl):
        need(cl in self.clients, 'STALE_CLIENTID')
        need(not any((s['cl'] == cl for s in self.sessions.values())) and (not any((q['cl'] == cl for q in self.opens.values()))), 'CLIENTID_BUSY')
        del self.clients[cl]
        return b''

    def op58(self, one):
        if one:
            self.cur()
            return b''
        r = self.clients[self.cl]
        need(not r['done'], 'COMPLETE_ALREADY')
        r['done'] = True
        return b''

    def op53(self, a):
        sid, num, slot, high, cache = a
        n = self.sess(sid)
        s = self.sessions[n]
        need(self.reclen <= s['req'], 'REQ_TOO_BIG')
        need(self.count_ <= s['ops'], 'TOO_MANY_OPS')
        k = len(s['slots'])
        need(slot < k, 'BADSLOT')
        need(high < k, 'BAD_HIGH_SLOT')
        q = s['slots'][slot]
        if q['used'] and num == q['last']:
            need(q['args'] == self.compared(self.args) and q['caller'] == self.sent, 'SEQ_FALSE_RETRY')
            self.again = q['rep']
            return b''
        need(num == (q['last'] + 1) % 2 ** 32, 'SEQ_MISORDERED')
        q['last'] = num
        q['used'] = True
        self.keep = q
        self.cl = s['cl']
        self.cache = cache
        self.limit = s['rep']
        return sid + u(num) + u(slot) + u(k - 1) + u(k - 1) + u(0)

    def record(self, rec, now):
        """Gives the reply, or None where the connection breaks."""
        r = Rd(rec)
        try:
            xid = r.u()
            t = r.u()
            if t != 0:
                return None
            v = r.u()
        except Short:
            return None
        if v != 2:
            return u(xid) + u(1) + u(1) + u(0) + u(2) + u(2)
        try:
            prog = r.u()
            vers = r.u()
            proc = r.u()
            fl = r.u()
            body = r.o(400)
            r.u()
            r.o(400)
        except Short:
            return None
        ok = u(xid) + u(1) + u(0) + u(0) + u(0)
        if prog != 100003:
            return ok + u(1)
        if vers != 4:
            return ok + u(2) + u(4) + u(4)
        if proc > 1:
            return ok + u(3)
        if proc == 0:
            return ok + u(0)
        if fl != 1:
            return u(xid) + u(1) + u(1) + u(1) + u(5)
        b = Rd(body)
        try:
            b.u()
            b.o(255)
            uid = b.u()
            gid = b.u()
            n = b.u()
            if n > 16:
                raise Short()
            gids = [b.u() for _ in range(n)]
            if not b.end():
                raise Short()
        except Short:
            return u(xid) + u(1) + u(1) + u(1) + u(1)
        out = self.compound(rec[r.at:], len(rec), (uid, frozenset([gid] + gids), gid), now)
        return ok + (u(4) if out is None else u(0) + out)
