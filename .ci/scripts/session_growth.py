"""Each growth of clients and of sessions fails: all memory of a heap is taken, and freed piece by piece until a call is answered."""
from scripts.heaps import in_heaps, steps
from scripts.probe import Difference, digits
from scripts.server_growth import BOOK, LIMIT
from scripts.servers import ask_call
from scripts.words import ALICE, BOB, answer_of, call_of, split_word

# the bytes of the heap, in which there is room for a server and for some sessions; and the bytes that are given back at a time: no slot's request or reply has as few
SIZE, CHUNK = 1 << 20, 256

# how often a call may be delayed
PATIENCE = {"EXCHANGE_ID": 100, "CREATE_SESSION": 600}


def exchanged(client):
    return f"ok EXCHANGE_ID ok ^{client:x} 1 10000 0 ^0 'nfs41-lists 'nfs41-lists 0"


def create(client, number, replies="1000"):
    return f"CREATE_SESSION ^{client} {number} 0 0 400 {replies} 0 8 8 0 0 0 0 0 0 0 0 0 0"


def created(session, number):
    return f"ok CREATE_SESSION ok ^0 ^{session} {number} 0 0 400 1000 1000 8 8 0 0 0 0 0 0 0 0"


def alone(call, status):
    """The call of one operation that is refused with a status."""
    return call, f"{status} {split_word(call)[0]} {status}"


def turn(number, rest):
    return f"SEQUENCE ^0 ^4 {number} 0 0 0 {rest}".rstrip()


def turned(number, status, rest):
    return f"{status} SEQUENCE ok ^0 ^4 {number} 0 7 7 0 {rest}"


OPEN_F = "SEQUENCE ^0 ^1 1 0 0 0 PUTROOTFH OPEN 0 1 0 0 0 'o 0 0 'f"
OPENED_F = "ok SEQUENCE ok ^0 ^1 1 0 7 7 0 PUTROOTFH ok OPEN ok 1 0 0 1 2>2 0 0 0"
ROOT_FH = ("SEQUENCE ^0 ^2 1 0 0 0 PUTROOTFH GETFH", "ok SEQUENCE ok ^0 ^2 1 0 7 7 0 PUTROOTFH ok GETFH ok @1")

# A call made with ample memory; then one that wants memory; and one that is answered meanwhile, as long as the second is delayed. The owner's name is 1,024 bytes long,
# and a session has eight slots, each with 1,024 bytes for a request and 4,072 for results. An open stays with client 1 as long as session 2 isn't created; then client
# 1 goes with its session. The clients 1 and 2 are of bob, and alice's client 3 takes their place.
GROWTHS = [
    ((BOB, *alone("EXCHANGE_ID ^0 ~400 80000000 0 0", "inval")), (BOB, "EXCHANGE_ID ^0 ~400 0 0 0", exchanged(1)), (BOB, *alone("DESTROY_CLIENTID ^1", "staleclientid"))),
    ((BOB, *alone(create(1, 2), "seqmisordered")), (BOB, create(1, 1), created(1, 1)), (BOB, *alone("SEQUENCE ^0 ^1 1 0 0 0", "badsession"))),
    ((BOB, OPEN_F, OPENED_F), (BOB, "EXCHANGE_ID ^1 ~400 0 0 0", exchanged(2)), (BOB, *alone(create(2, 1), "staleclientid"))),
    ((BOB, *alone(create(2, 2), "seqmisordered")), (BOB, create(2, 1), created(2, 1)), (BOB, OPEN_F, OPENED_F)),
    ((BOB, OPEN_F, "badsession SEQUENCE badsession"), (BOB, create(2, 2), created(3, 2)), (BOB, *alone("SEQUENCE ^0 ^3 1 0 0 0", "badsession"))),
    ((BOB, *ROOT_FH), (ALICE, "EXCHANGE_ID ^1 ~400 0 0 0", exchanged(3)), (BOB, *ROOT_FH)),
    ((BOB, ROOT_FH[0], "badsession SEQUENCE badsession"), (ALICE, create(3, 1), created(4, 1)), (ALICE, *alone(create(3, 2), "seqmisordered"))),
]

LOOK_AROUND = "PUTROOTFH LOOKUP 'f SAVEFH RESTOREFH ACCESS 3f"
LOOKED_AROUND = "PUTROOTFH ok LOOKUP ok SAVEFH ok RESTOREFH ok ACCESS ok 2d 2d"
OPEN_G = "PUTROOTFH OPEN 0 1 0 0 0 'o 1 0 0 0 0 'g"
MAKE_D = "PUTROOTFH CREATE 2 'd 0 0"

# calls where no memory is left: none is delayed but the CREATE and the OPEN after a SEQUENCE, which take some; these delays are kept, as all results are
FULL = [
    (
        ALICE, turn(1, "PUTROOTFH LOOKUP 'f GETFH SAVEFH LOOKUPP RESTOREFH ACCESS 3f"),
        turned(1, "notdir", "PUTROOTFH ok LOOKUP ok GETFH ok @2 SAVEFH ok LOOKUPP notdir"),
    ),
    (ALICE, turn(2, LOOK_AROUND), turned(2, "ok", LOOKED_AROUND)),
    (ALICE, turn(2, LOOK_AROUND), turned(2, "ok", LOOKED_AROUND)),
    (ALICE, turn(3, "PUTFH @2 READ anon ^0 10 GETATTR +4 COMMIT ^0 0"), turned(3, "ok", "PUTFH ok READ ok 1 0 GETATTR ok +4 ( ^0 ) COMMIT ok 0 0")),
    (ALICE, turn(4, "RECLAIM_COMPLETE 0"), turned(4, "ok", "RECLAIM_COMPLETE ok")),
    (ALICE, turn(5, "RECLAIM_COMPLETE 0"), turned(5, "completealready", "RECLAIM_COMPLETE completealready")),
    (ALICE, turn(6, "PUTROOTFH READDIR ^0 0 0 0 1000 0 LOOKUP 'none"), turned(6, "noent", "PUTROOTFH ok READDIR ok 0 0 1 ^3 'f 0 0 0 1 LOOKUP noent")),
    (ALICE, turn(7, MAKE_D), turned(7, "delay", "PUTROOTFH ok CREATE delay")),
    (ALICE, turn(7, MAKE_D), turned(7, "delay", "PUTROOTFH ok CREATE delay")),
    (ALICE, turn(8, OPEN_G), turned(8, "delay", "PUTROOTFH ok OPEN delay")),
    (ALICE, create(3, 1), created(4, 1)),
    (ALICE, *alone(create(3, 3), "seqmisordered")),
    (ALICE, *alone(create(3, 2, "fff"), "toosmall")),
    (ALICE, *alone(create(2, 3), "staleclientid")),
    (ALICE, *alone("EXCHANGE_ID ^0 'c0 40000000 0 0", "notsupp")),
    (ALICE, *alone("DESTROY_CLIENTID ^3", "clientidbusy")),
    (ALICE, *alone("DESTROY_SESSION ^0 ^3", "badsession")),
    (BOB, turn(8, OPEN_G), "seqfalseretry SEQUENCE seqfalseretry"),
]

# calls that were delayed are done with memory, at the next number; at the old one they are delayed again, also under another book
AFTER = [
    (ALICE, turn(8, OPEN_G), turned(8, "delay", "PUTROOTFH ok OPEN delay")),
    (ALICE, turn(9, OPEN_G), turned(9, "ok", "PUTROOTFH ok OPEN ok 1 0 0 2 2>3 0 0 0")),
    (ALICE, turn("a", MAKE_D), turned("a", "ok", "PUTROOTFH ok CREATE ok 3>4 0")),
]

# sessions and clients are destroyed where no memory is left
ENDS = [
    (ALICE, turn("b", "PUTFH @3 CLOSE 0 1 0 0 2"), turned("b", "ok", "PUTFH ok CLOSE ok closed")),
    (ALICE, turn("c", "PUTROOTFH REMOVE 'd"), turned("c", "ok", "PUTROOTFH ok REMOVE ok 4>5")),
    (ALICE, "DESTROY_SESSION ^0 ^4", "ok DESTROY_SESSION ok"),
    (ALICE, "DESTROY_CLIENTID ^3", "ok DESTROY_CLIENTID ok"),
    (ALICE, *alone(turn("d", ""), "badsession")),
    (ALICE, "DESTROY_CLIENTID ^4", "ok DESTROY_CLIENTID ok"),
]


def ask(talk, row):
    who, call, _ = row
    return ask_call(talk, True, who, 0, call_of(call))


def see(talk, row):
    """Sees the answer to a call."""
    asked, wanted = ask(talk, row), answer_of(row[2])
    talk.see(row[1][:200], asked.bytes, lambda: wanted)


def withhold(talk):
    """Takes all memory, of which there is some."""
    taken = talk.ask(f"withhold {CHUNK}")
    talk.see("whether memory was taken", lambda: int(taken.answer) > 0, lambda: True)


def give_all(talk):
    talk.ask(f"give {1 << 32}")


class Try:
    """A call that wants memory, the pictures before it and after it, and a call that is answered meanwhile."""

    def __init__(self, talk, growth, meanwhile):
        self.before, self.asked = talk.ask(f"picture {LIMIT}"), ask(talk, growth)
        talk.tell(f"stop {answer_of(growth[2]).hex()}")
        self.after, self.other = talk.ask(f"picture {LIMIT}"), ask(talk, meanwhile)
        self.wanted = answer_of(meanwhile[2])
        self.delay = answer_of("delay {0} delay".format(split_word(growth[1])[0]))
        talk.ask("give 1")

    def see_delayed(self):
        """Sees that the call was delayed with all as it was, and the other one answered."""
        if self.asked.bytes() != self.delay or self.after.answer != self.before.answer or self.other.bytes() != self.wanted:
            raise Difference(f"no delay: {self.asked.line[:80]}: {self.asked.answer}, {self.other.answer}")


def see_tries(tries, wanted, least):
    """How often a call was delayed until it was answered, which is that often at least."""
    for count, it in enumerate(tries):
        if it.asked.bytes() == wanted:
            return count if count >= least else f"{count} delays alone"
        it.see_delayed()
    return "never answered"


def see_growth(talk, growth, meanwhile):
    """Makes a call where no memory is left, and until it is answered, as memory is given back. Each of a session's requests and replies is refused once at least, since fewer
    bytes are given back at a time."""
    word, wanted = split_word(growth[1])[0], answer_of(growth[2])
    withhold(talk)
    tries = [Try(talk, growth, meanwhile) for _ in range(PATIENCE[word])]
    talk.tell("on")
    give_all(talk)
    least = 150 if word == "CREATE_SESSION" else 1
    talk.see(growth[1][:80], lambda: isinstance(see_tries(tries, wanted, least), int) or see_tries(tries, wanted, least), lambda: True)


def see_client(talk, client):
    """An owner gets the client of this number, once there is memory for it."""
    stale = (ALICE, *alone(f"DESTROY_CLIENTID ^{client:x}", "staleclientid"))
    see_growth(talk, (ALICE, f"EXCHANGE_ID ^0 'c{client:x} 0 0 0", exchanged(client)), stale)


def see_full(talk, rows):
    """Sees the answers to calls where no memory is left."""
    withhold(talk)
    for row in rows:
        see(talk, row)
    give_all(talk)


def see_full_unchanged(talk):
    """Sees that calls are answered where no memory is left, and that the tree, the open files and the trail are as they were."""
    before = [talk.ask(it) for it in (f"tree {LIMIT}", "opens")]
    see_full(talk, FULL)
    after = [talk.ask(it) for it in (f"tree {LIMIT}", "opens")]
    talk.see("tree and opens", lambda: [it.answer for it in after], lambda: [it.answer for it in before])


def see_full_reload(talk):
    """Sees that another book is loaded where no memory is left, and that all else stays."""
    withhold(talk)
    before, loaded, after = (talk.ask(it) for it in (f"picture {LIMIT}", f"load {digits(BOOK)}", f"picture {LIMIT}"))
    talk.see("the book", lambda: (loaded.answer, after.answer), lambda: ("ok", before.answer))
    give_all(talk)


def play(talk):
    for before, growth, meanwhile in GROWTHS:
        see(talk, before)
        see_growth(talk, growth, meanwhile)
    for client in range(4, 36):
        see_client(talk, client)
    see_full_unchanged(talk)
    see_full_reload(talk)
    for row in AFTER:
        see(talk, row)
    see_full(talk, ENDS)


def growth(program):
    """Each growth of clients and of sessions is done, or delayed with all as it was, and no other operation is ever delayed."""
    heap, = in_heaps(program, "file", steps(SIZE, 1, 1), play)
    if not heap.has_house():
        raise Difference("a small heap")
    return f"{len(GROWTHS)} growths, 32 clients"
