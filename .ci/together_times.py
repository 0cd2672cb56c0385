"""Scenes of times that clients set, for .ci/together: who may set them, what is read back, and what a server of the standard profile says.

The rows are written down here from RFC 8881: sections 3.3.2 and 5.8.2 for the attributes, 6.2.1.3.1 for the permissions, and 18.30 for SETATTR.
"""
import struct
import time

from together_lab import OPEN_BOOK, ROOT, Server, Session, hyper, lines_of, lookup, opaque, read, see, words, write_text

OFFICE = ("--profile", "office")
# statuses
OK, ACCESS, INVAL, ATTRNOTSUPP, BADXDR, BADOWNER = 0, 13, 22, 10032, 10036, 10039
# attributes
SUPPORTED, CHANGE, SIZE, CANSETTIME, OWNER, OWNER_GROUP, MODE = 0, 3, 4, 15, 36, 37, 33
SPACE_USED, TIME_ACCESS, TIME_ACCESS_SET, TIME_DELTA, TIME_METADATA, TIME_MODIFY, TIME_MODIFY_SET = 45, 47, 48, 51, 52, 53, 54
DACL = 58
# what SEQUENCE and PUTROOTFH take of the results, after the count of results, and LOOKUP
FRONT, STEP = 4 + 44 + 8, 8
# the server's time, in the form settime4
SERVER = words(0)
EVERYONE, BOB = b"EVERYONE@", b"1002"
READ_ATTRIBUTES, WRITE_DATA, WRITE_ATTRIBUTES = 0x80, 2, 0x100
# the owner may set lists, and see all
OWN = (0, 0, 0xE0181, b"OWNER@")
MAY_WRITE, MAY_SET = (0, 0, WRITE_DATA, EVERYONE), (0, 0, WRITE_ATTRIBUTES, EVERYONE)
NO_WRITE, NO_SET = (1, 0, WRITE_DATA, BOB), (1, 0, WRITE_ATTRIBUTES, BOB)
# what is granted to the other one, what is refused, and both have a line
GRANTED, REFUSED, BOTH = ((2, flags, WRITE_DATA | WRITE_ATTRIBUTES, BOB) for flags in (0x10, 0x20, 0x30))
EPOCH = (0, 0)


def client(seconds, nanoseconds):
    """A client's time, in the form settime4."""
    return words(1) + moment(seconds, nanoseconds)


def moment(seconds, nanoseconds):
    return struct.pack(">qI", seconds, nanoseconds)


def bitmap(numbers):
    found = [sum(1 << number % 32 for number in numbers if number // 32 == word) for word in range(max(numbers, default=-32) // 32 + 1)]
    return words(len(found), *found)


def attributes(values):
    """Attributes with their values (fattr4), by rising numbers."""
    return bitmap(values) + opaque(b"".join(it for _, it in sorted(values.items())))


def setattr_of(values):
    """SETATTR by the anonymous stateid."""
    return words(34, 0, 0, 0, 0) + attributes(values)


def set_entries(entries):
    """SETATTR of the attribute acl."""
    return setattr_of({12: words(len(entries)) + b"".join(words(*entry[:3]) + opaque(entry[3]) for entry in entries)})


def getattr_of(*numbers):
    return words(9) + bitmap(numbers)


def make_directory(name, values):
    return words(6, 2) + opaque(name) + attributes(values)


def make_link(name, text, values):
    return words(6, 5) + opaque(text) + opaque(name) + attributes(values)


def make_file(name, values):
    """OPEN that makes a file, or finds it, for read and write."""
    return words(18, 0, 3, 0, 0, 0) + opaque(b"o") + words(1, 0) + attributes(values) + words(0) + opaque(name)


def write(content):
    return words(38, 0, 0, 0, 0) + hyper(0) + words(2) + opaque(content)


def done(caller, name, operation):
    """The status of an operation on a file of the root, and its result."""
    status, answer = caller.call(3, ROOT + lookup(name) + operation)
    return status, answer[FRONT + STEP + 8 :]


def status_of(caller, name, operation):
    return done(caller, name, operation)[0]


def in_root(caller, operation):
    """The result of an operation on the root."""
    status, answer = caller.call(2, ROOT + operation)
    see("the status of an operation on the root", status, OK)
    return answer[FRONT + 8 :]


def values_in(answer, *numbers):
    """The bytes of the values in the answer of a GETATTR, which has these attributes."""
    front = bitmap(numbers)
    see(f"the attributes {numbers}", answer[: len(front)], front)
    count = struct.unpack(">I", answer[len(front) : len(front) + 4])[0]
    return answer[len(front) + 4 : len(front) + 4 + count]


def times_in(answer):
    """The times of access, of metadata and of the last change of the content."""
    got = struct.unpack(">qIqIqI", values_in(answer, TIME_ACCESS, TIME_METADATA, TIME_MODIFY))
    return got[:2], got[2:4], got[4:]


ALL_TIMES = getattr_of(TIME_ACCESS, TIME_METADATA, TIME_MODIFY)


def times_of(caller, name):
    status, answer = done(caller, name, ALL_TIMES)
    see("the status of a GETATTR", status, OK)
    return times_in(answer)


def change_of(caller, name):
    return struct.unpack(">Q", values_in(done(caller, name, getattr_of(CHANGE))[1], CHANGE))[0]


def see_now(what, given, since):
    see(f"{what} is the call's", since - 2 <= given[0] <= time.time() + 2 and given[1] < 10**9, True)


def line(kind, mask, end):
    return f"{kind} uid=1002 op=SETATTR obj=2 mask={mask:08x} {end}\n"


SOME = client(86400, 5)
# the list of the file, what is set by another than its owner, the status, and the lines of the trail
BY_SERVER = {TIME_ACCESS_SET: SERVER, TIME_MODIFY_SET: SERVER}
BY_CLIENT = {TIME_ACCESS_SET: SOME, TIME_MODIFY_SET: SOME}
MIXED = ({TIME_ACCESS_SET: SERVER, TIME_MODIFY_SET: SOME}, {TIME_ACCESS_SET: SOME, TIME_MODIFY_SET: SERVER})
LACKED = line("DENY", WRITE_ATTRIBUTES, "missing=00000100")
EMPTY = {SIZE: hyper(0)}
ROWS = (
    # the server's time is for writers too, a client's isn't, and one of a client's makes both a client's
    ("a touch by a writer", (OWN, MAY_WRITE), BY_SERVER, OK, ()),
    ("one time by a writer", (OWN, MAY_WRITE), {TIME_ACCESS_SET: SERVER}, OK, ()),
    ("a client's times by a writer", (OWN, MAY_WRITE), BY_CLIENT, ACCESS, (LACKED,)),
    ("a client's time of access by a writer", (OWN, MAY_WRITE), {TIME_ACCESS_SET: SOME}, ACCESS, (LACKED,)),
    ("a client's time of change by a writer", (OWN, MAY_WRITE), {TIME_MODIFY_SET: SOME}, ACCESS, (LACKED,)),
    ("a client's time of change beside the server's", (OWN, MAY_WRITE), MIXED[0], ACCESS, (LACKED,)),
    ("a client's time of access beside the server's", (OWN, MAY_WRITE), MIXED[1], ACCESS, (LACKED,)),
    # WRITE_ATTRIBUTES suffices for each
    ("a touch by WRITE_ATTRIBUTES", (OWN, MAY_SET), BY_SERVER, OK, ()),
    ("a touch by WRITE_ATTRIBUTES where writing is denied", (OWN, NO_WRITE, MAY_SET), BY_SERVER, OK, ()),
    ("a client's times by WRITE_ATTRIBUTES", (OWN, MAY_SET), BY_CLIENT, OK, ()),
    ("both kinds by WRITE_ATTRIBUTES", (OWN, MAY_SET), MIXED[0], OK, ()),
    # a DENY of WRITE_ATTRIBUTES leaves writers the server's time
    ("a touch by a writer to whom WRITE_ATTRIBUTES is denied", (OWN, NO_SET, MAY_WRITE, MAY_SET), BY_SERVER, OK, ()),
    ("a client's times where they are denied", (OWN, NO_SET, MAY_WRITE, MAY_SET), BY_CLIENT, ACCESS, (line("DENY", 0x100, "entry=1"),)),
    # neither: the refusal is that of WRITE_ATTRIBUTES
    ("a touch by neither", (OWN,), BY_SERVER, ACCESS, (LACKED,)),
    ("a touch where writing is denied", (OWN, NO_WRITE), BY_SERVER, ACCESS, (LACKED,)),
    ("a touch where WRITE_ATTRIBUTES is denied", (OWN, NO_SET), BY_SERVER, ACCESS, (line("DENY", 0x100, "entry=1"),)),
    ("a touch where both are denied", (OWN, NO_WRITE, NO_SET, MAY_WRITE, MAY_SET), BY_SERVER, ACCESS, (line("DENY", 0x100, "entry=2"),)),
    # lines are those of one decision
    ("a watched touch by a writer", (OWN, BOTH, MAY_WRITE), BY_SERVER, OK, (line("AUDIT", 2, "granted entry=1"),)),
    ("a watched touch by WRITE_ATTRIBUTES", (OWN, BOTH, MAY_WRITE, MAY_SET), BY_SERVER, OK, (line("AUDIT", 0x100, "granted entry=1"),)),
    ("a touch whose refusals alone are watched", (OWN, REFUSED, NO_SET, MAY_WRITE), BY_SERVER, OK, ()),
    ("a watched touch by neither", (OWN, BOTH), BY_SERVER, ACCESS, (line("AUDIT", 0x100, "refused entry=1"), LACKED)),
    ("a watched client's time", (OWN, GRANTED, MAY_SET), BY_CLIENT, OK, (line("AUDIT", 0x100, "granted entry=1"),)),
    ("a watched time of each kind", (OWN, GRANTED, MAY_SET), MIXED[0], OK, (line("AUDIT", 0x100, "granted entry=1"),)),
    # a client's time is part of the demand of the other attributes, the server's time has one of its own after it
    ("a size and a touch", (OWN, BOTH, MAY_WRITE), EMPTY | BY_SERVER, OK, (line("AUDIT", 2, "granted entry=1"),) * 2),
    ("a size and a touch by WRITE_ATTRIBUTES", (OWN, BOTH, MAY_SET), EMPTY | BY_SERVER, ACCESS,
     (line("AUDIT", 2, "refused entry=1"), line("DENY", 2, "missing=00000002"))),
    ("a size and a client's times", (OWN, BOTH, MAY_WRITE, MAY_SET), EMPTY | BY_CLIENT, OK, (line("AUDIT", 0x102, "granted entry=1"),)),
    ("a size and a client's times by a writer", (OWN, BOTH, MAY_WRITE), EMPTY | BY_CLIENT, ACCESS,
     (line("AUDIT", 0x102, "refused entry=1"), line("DENY", 0x102, "missing=00000100"))),
)


def times_by_permission(program, room):
    """Who may set the server's time, and who a client's, with the lines of the trail: SETATTR by another than the owner, for each list."""
    book, path = f"{room}/names.toml", f"{room}/trail"
    write_text(book, OPEN_BOOK)
    write_text(path, "")
    server = Server(program, "--book", book, "--trail", path, "--concurrent", *OFFICE)
    alice, bob = Session(server, 0x61, 1001), Session(server, 0x62, 1002)
    in_root(alice, make_file(b"f", {MODE: words(0o600)}))
    wanted = []
    for what, entries, values, status, lines in ROWS:
        see(f"the list for {what}", status_of(alice, b"f", set_entries(entries)), OK)
        see("the times before", status_of(alice, b"f", setattr_of({TIME_ACCESS_SET: client(7, 0), TIME_MODIFY_SET: client(8, 0)})), OK)
        since = time.time()
        see(f"the status of {what}", status_of(bob, b"f", setattr_of(values)), status)
        wanted += lines
        see(f"the trail after {what}", lines_of(path), wanted)
        access, _, modify = times_of(alice, b"f")
        for name, given, number, before in (("access", access, TIME_ACCESS_SET, (7, 0)), ("change", modify, TIME_MODIFY_SET, (8, 0))):
            if status != OK or number not in values:
                see(f"the time of {name} after {what}", given, before)
            elif values[number] == SERVER:
                see_now(f"the time of {name} after {what}", given, since)
            else:
                see(f"the time of {name} after {what}", given, (86400, 5))
    server.stop()


def times_are_set(caller, since):
    """Times of a file are set by SETATTR, and read back. Each SETATTR takes one tick, and its result has the numbers that were set."""
    in_root(caller, make_file(b"f", {MODE: words(0o644)}))
    made = times_of(caller, b"f")
    see_now("the time of making", made[0], since)
    see("the other times of making", made[1:], (made[0],) * 2)
    for access, modify in (((1, 0), (2, 999_999_999)), ((-1, 5), (1 << 40, 0)), ((-(1 << 63), 0), ((1 << 63) - 1, 1))):
        before = change_of(caller, b"f")
        status, answer = done(caller, b"f", setattr_of({MODE: words(0o640), TIME_ACCESS_SET: client(*access), TIME_MODIFY_SET: client(*modify)}))
        see("SETATTR of a mode and times", (status, answer), (OK, bitmap({MODE, TIME_ACCESS_SET, TIME_MODIFY_SET})))
        got = times_of(caller, b"f")
        see("the times that were set", (got[0], got[2]), (access, modify))
        see_now("the time of metadata", got[1], since)
        see("the ticks of a SETATTR", change_of(caller, b"f") - before, 1)
    for number, place in ((TIME_ACCESS_SET, 0), (TIME_MODIFY_SET, 2)):
        before = list(times_of(caller, b"f"))
        see("SETATTR of one time", done(caller, b"f", setattr_of({number: client(77, 7)})), (OK, bitmap({number})))
        after = list(times_of(caller, b"f"))
        before[place], before[1] = (77, 7), after[1]
        see("the times after one was set", after, before)
    see("SETATTR of the server's times", status_of(caller, b"f", setattr_of(BY_SERVER)), OK)
    got = times_of(caller, b"f")
    see_now("the server's time", got[0], since)
    see("the server's times", got[1:], (got[0],) * 2)


def times_of_uses(caller, since):
    """Neither READ nor WRITE moves the time of access. A WRITE moves that of the change, and a size does unless a time is set beside it."""
    set_both = setattr_of({TIME_ACCESS_SET: client(10, 1), TIME_MODIFY_SET: client(20, 2)})
    see("SETATTR of both", status_of(caller, b"f", set_both), OK)
    before = times_of(caller, b"f")
    see("the status of a READ", status_of(caller, b"f", read(10)), OK)
    see("the times after a READ", times_of(caller, b"f"), before)
    see("the status of a WRITE", status_of(caller, b"f", write(b"hello")), OK)
    got = times_of(caller, b"f")
    see("the time of access after a WRITE", got[0], (10, 1))
    see_now("the time of change after a WRITE", got[2], since)
    see("a size and a time of change", status_of(caller, b"f", setattr_of({SIZE: hyper(3), TIME_MODIFY_SET: client(30, 3)})), OK)
    got = times_of(caller, b"f")
    see("the times after a size and a time", (got[0], got[2]), ((10, 1), (30, 3)))
    see("a size and a time of access", status_of(caller, b"f", setattr_of({SIZE: hyper(2), TIME_ACCESS_SET: client(40, 4)})), OK)
    got = times_of(caller, b"f")
    see("the time of access beside a size", got[0], (40, 4))
    see_now("the time of change by a size", got[2], since)


def times_of_new_objects(caller, since):
    """New objects of each kind have the times that are sent, and else the call's. A file that is there keeps its own."""
    sent = {TIME_ACCESS_SET: client(50, 5), TIME_MODIFY_SET: client(60, 6)}
    for what, name, make in (
        ("a file", b"file", lambda values: make_file(b"file", values)),
        ("a directory", b"dir", lambda values: make_directory(b"dir", values)),
        ("a link", b"link", lambda values: make_link(b"link", b"f", values)),
    ):
        answer = in_root(caller, make(sent))
        see(f"the numbers that were set of {what}", bitmap(sent) in answer, True)
        got = times_of(caller, name)
        see(f"the times of {what}", (got[0], got[2]), ((50, 5), (60, 6)))
        see_now(f"the time of metadata of {what}", got[1], since)
    in_root(caller, make_file(b"half", {TIME_MODIFY_SET: client(60, 6)}))
    got = times_of(caller, b"half")
    see_now("the time of access of a new file", got[0], since)
    see("the times of a file with one", (got[0], got[2]), (got[1], (60, 6)))
    in_root(caller, make_file(b"touched", BY_SERVER))
    got = times_of(caller, b"touched")
    see("the server's times of a new file", (got[0], got[2]), (got[1],) * 2)
    before = times_of(caller, b"file")
    answer = in_root(caller, make_file(b"file", {TIME_ACCESS_SET: client(70, 7), TIME_MODIFY_SET: SERVER}))
    see("the numbers that are set of a file that is there", answer[16 + 20 + 4 : 16 + 20 + 4 + 4], words(0))
    see("the times of a file that is there", times_of(caller, b"file"), before)


def times_read_back(program, room):
    """Times that are set are read back, also by a server that was killed and starts again. The root of a new tree has those of the epoch."""
    home = f"{room}/home"
    server = Server(program, "--home", home, *OFFICE)
    root = Session(server, 0x61, 0)
    see("the times of a new root", times_in(in_root(root, ALL_TIMES)), (EPOCH,) * 3)
    since = time.time()
    times_are_set(root, since)
    times_of_uses(root, since)
    times_of_new_objects(root, since)
    names = (b"f", b"file", b"dir", b"link", b"half", b"touched")
    kept = [times_of(root, name) for name in names]
    server.ran.kill()
    server.ends(-9, "")
    server = Server(program, "--home", home, *OFFICE)
    again = Session(server, 0x62, 0)
    see("the times after a restart", [times_of(again, name) for name in names], kept)
    server.stop()


def see_space(caller, name, wanted):
    values = values_in(done(caller, name, getattr_of(SPACE_USED))[1], SPACE_USED)
    see(f"the space of {name}", struct.unpack(">Q", values)[0], wanted)


# attributes that are sent, and the status
FAULTS = (
    ("cansettime", {CANSETTIME: words(1)}, INVAL),
    ("space_used", {SPACE_USED: hyper(0)}, INVAL),
    ("time_access", {TIME_ACCESS: moment(1, 1)}, INVAL),
    ("time_delta", {TIME_DELTA: moment(0, 1)}, INVAL),
    ("another kind of time", {TIME_ACCESS_SET: words(2)}, BADXDR),
    ("another kind of time with a moment", {TIME_ACCESS_SET: words(2) + moment(1, 1)}, BADXDR),
    ("the server's time with a moment", {TIME_MODIFY_SET: SERVER + moment(1, 1)}, BADXDR),
    ("a client's time without one", {TIME_MODIFY_SET: words(1)}, BADXDR),
    ("a second of nanoseconds", {TIME_ACCESS_SET: client(1, 10**9)}, INVAL),
    ("a second of nanoseconds of the change", {TIME_MODIFY_SET: client(1, (1 << 32) - 1)}, INVAL),
    ("an unknown owner before nanoseconds", {OWNER: opaque(b"x"), TIME_MODIFY_SET: client(1, 10**9)}, BADOWNER),
    ("an unknown group before nanoseconds", {OWNER_GROUP: opaque(b"x"), TIME_ACCESS_SET: client(1, 10**9)}, BADOWNER),
    ("nanoseconds before a fault of the dacl", {TIME_MODIFY_SET: client(1, 10**9), DACL: words(1, 0)}, INVAL),
    ("a fault of the dacl", {TIME_MODIFY_SET: client(1, 0), DACL: words(1, 0)}, ATTRNOTSUPP),
)


def attributes_of_times(program, room):
    """The attributes of times and of space: what is supported, what they say, and what may not be set or asked."""
    book = f"{room}/names.toml"
    write_text(book, OPEN_BOOK)
    server = Server(program, "--book", book, "--concurrent", *OFFICE)
    alice, bob = Session(server, 0x61, 1001), Session(server, 0x62, 1002)
    see("supported_attrs", values_in(in_root(alice, getattr_of(SUPPORTED)), SUPPORTED), words(3, 0xE818_BFFF, 0x0CF9_A03A, 0x800))
    see("cansettime and time_delta", values_in(in_root(alice, getattr_of(CANSETTIME, TIME_DELTA)), CANSETTIME, TIME_DELTA), words(1) + moment(0, 1))
    in_root(alice, make_file(b"f", {MODE: words(0o600)}))
    for size, space in ((0, 0), (1, 4096), (4095, 4096), (4096, 4096), (4097, 8192), (1 << 20, 1 << 20)):
        see("the status of a size", status_of(alice, b"f", setattr_of({SIZE: hyper(size)})), OK)
        see_space(alice, b"f", space)
    in_root(alice, make_directory(b"d", {}))
    in_root(alice, make_link(b"l", b"f", {}))
    see_space(alice, b"d", 4096)
    see_space(alice, b"l", 4096)
    for what, values, status in FAULTS:
        see(f"the status of {what}", status_of(alice, b"f", setattr_of(values)), status)
    see("the list of a file that is closed", status_of(alice, b"f", set_entries((OWN,))), OK)
    for number in (TIME_ACCESS_SET, TIME_MODIFY_SET):
        for caller in (alice, bob):
            see(f"GETATTR of {number}", status_of(caller, b"f", getattr_of(CHANGE, number)), INVAL)
            see(f"VERIFY of {number}", status_of(caller, b"f", words(37) + attributes({number: SERVER})), INVAL)
            see(f"NVERIFY of {number}", status_of(caller, b"f", words(17) + attributes({number: SERVER})), INVAL)
            see(f"READDIR with {number}", caller.status(2, ROOT + words(26, 0, 0, 0, 0, 0, 10000) + bitmap({number})), INVAL)
    for number, status in ((CANSETTIME, OK), (TIME_DELTA, OK), (SPACE_USED, ACCESS), (TIME_ACCESS, ACCESS)):
        see(f"GETATTR of {number} without READ_ATTRIBUTES", status_of(bob, b"f", getattr_of(number)), status)
    server.stop()


def standard_has_no_times(program, room):
    """A server of the standard profile has none of these attributes: they can't be set or compared, and are left out where they are asked."""
    book = f"{room}/names.toml"
    write_text(book, OPEN_BOOK)
    server = Server(program, "--book", book, "--concurrent")
    alice, bob = Session(server, 0x61, 1001), Session(server, 0x62, 1002)
    see("supported_attrs", values_in(in_root(alice, getattr_of(SUPPORTED)), SUPPORTED), words(3, 0xE818_3FFF, 0x0CB0_003A, 0x800))
    in_root(alice, make_file(b"f", {MODE: words(0o600)}))
    for values in (BY_SERVER, BY_CLIENT, {TIME_ACCESS_SET: SERVER}, {TIME_MODIFY_SET: SERVER}, {TIME_ACCESS_SET: client(1, 10**9)}):
        see("the status of SETATTR", status_of(alice, b"f", setattr_of(values)), ATTRNOTSUPP)
    see("the status of CREATE", alice.status(2, ROOT + make_directory(b"d", BY_SERVER)), ATTRNOTSUPP)
    see("the status of OPEN", alice.status(2, ROOT + make_file(b"new", BY_SERVER)), ATTRNOTSUPP)
    see("the list of a file that is closed", status_of(alice, b"f", set_entries((OWN,))), OK)
    for number in (CANSETTIME, SPACE_USED, TIME_ACCESS, TIME_ACCESS_SET, TIME_DELTA, TIME_MODIFY_SET):
        see(f"VERIFY of {number}", status_of(alice, b"f", words(37) + attributes({number: SERVER})), ATTRNOTSUPP)
        see(f"GETATTR of {number}", done(bob, b"f", getattr_of(number)), (OK, bitmap(()) + words(0)))
    server.stop()


SCENES = (times_by_permission, times_read_back, attributes_of_times, standard_has_no_times)
