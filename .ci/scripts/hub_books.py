"""Books that are loaded between the bytes of calls: a call is judged by the book that is loaded when its last byte arrives (RFC 8881, section 5.9)."""
from scripts.hub_lines import connect, load, send, take
from scripts.probe import Talk
from scripts.streams import BREAKING, CREATE_D, CREATE_E, calls_of, records_in, replies_of
from scripts.words import BOB, bytes_of, call_record

# bob is in the group 100, and alice, who has a name, in none
BOOK = """domain = 'house'
root_owner = 0
root_group = 0
root_mode = 493
[users]
alice = 1001
bob = 1002
[groups]
staff = 100
[members]
staff = ['bob']
"""

# in the group 100 as it is sent, and not by the book; bob is in it by the book alone
SENT = (1003, 100, 100)

READ = "PUTFH @2 READ anon ^0 2"
NAMES = "PUTFH @2 GETATTR +36+37 READ anon ^0 2"

# reads of the file `notes` of the sample tree, whose group is 100: the answers and lines before the book is loaded, and afterwards
REFUSED = "access PUTFH ok READ access"
GIVEN = "ok PUTFH ok READ ok 1 'hi"
NUMBERED = "ok PUTFH ok GETATTR ok +36+37 ( '1001 '100 ) READ ok 1 'hi"
NAMED = "access PUTFH ok GETATTR ok +36+37 ( 'alice@house 'staff@house ) READ access"
BEFORE = [(SENT, READ, GIVEN), (BOB, READ, REFUSED), (SENT, "PUTFH @2 ACCESS 2d", "ok PUTFH ok ACCESS ok 2d 1"), (SENT, NAMES, NUMBERED)]
AFTER = [(SENT, READ, REFUSED), (BOB, READ, GIVEN), (SENT, "PUTFH @2 ACCESS 2d", "ok PUTFH ok ACCESS ok 2d 0"), (SENT, NAMES, NAMED)]
SENT_LINE = "DENY uid=1003 op=READ obj=2 mask=00000001 missing=00000001\n"
BOB_LINE = "DENY uid=1002 op=READ obj=2 mask=00000001 missing=00000001\n"
LINES = [("", SENT_LINE), (BOB_LINE, ""), ("", ""), ("", SENT_LINE)]


def see_place(talk, calls, place):
    """Sees the replies and the trail where the book is loaded at a place of the stream of calls."""
    count = len(records_in(calls[:place]))
    replies = b"".join(replies_of(BEFORE)[:count] + replies_of(AFTER)[count:])
    lines = "".join(pair[0] if number < count else pair[1] for number, pair in enumerate(LINES))
    talk.begin("hub")
    connect(talk)
    send(talk, 0, calls[:place])
    load(talk, BOOK)
    send(talk, 0, calls[place:])
    take(talk, 0, replies, f"the book at {place}")
    trail = talk.ask("trail")
    talk.see(f"the trail, the book at {place}", trail.text, lambda: lines)


def at_each_place(program):
    """A book is loaded at each place of a stream, inside records and between them."""
    talk, calls = Talk(), b"".join(calls_of(BEFORE))
    for place in range(len(calls) + 1):
        see_place(talk, calls, place)
    talk.run(program)
    return f"{len(calls) + 1} places"


# PUTFH of the file `notes` and READ of two bytes, by user 1003 in group 100 as it is sent
READ_NOTES = call_record(7, SENT, READ)

# the replies: `y` where the file is read and `n` where it isn't; `1` where a directory is created whose parent has the change 3 before it and 4 after it, and `2`
# where it is created after that
REPLIES = {
    "y": bytes_of("80000040 7 1 0 0 0 0 0 0 2 16 0 19 0 1 2 68690000"),
    "n": bytes_of("80000034 7 1 0 0 0 0 d 0 2 16 0 19 d"),
    "1": bytes_of("80000054 2 1 0 0 0 0 0 0 3 18 0 f 0 6 0 1 0 3 0 4 0"),
    "2": bytes_of("80000054 2 1 0 0 0 0 0 0 3 18 0 f 0 6 0 1 0 4 0 5 0"),
}

# who acts in turn, and what `a` and `b` are answered: `a` and `b` send the next half of their call, again and again; `x` opens a third connection, which breaks;
# `r` loads a book with names, and `o` one without. Here `a` and `b` create a directory each, over all orders of the halves.
CREATED = [("xaabb", "1", "2"), ("xabab", "1", "2"), ("xabba", "2", "1"), ("xbbaa", "2", "1"), ("xbaba", "2", "1"), ("xbaab", "1", "2")]

# both read the file
BOTH_READ = [
    ("aabb", "y", "y"), ("aarbb", "y", "n"), ("bbraa", "n", "y"), ("arabb", "n", "n"), ("abrab", "n", "n"), ("abarb", "y", "n"), ("abbra", "n", "y"),
    ("raboba", "y", "y"), ("aarbboaabb", "yy", "ny"), ("abraobrr", "n", "y"), ("rorabroab", "y", "y"),
]


class Sender:
    """A connection, by its place, on which a call is sent again and again, in halves."""

    def __init__(self, place, call):
        half = len(call) // 2
        self.place, self.pieces, self.sent = place, (call[:half], call[half:]), 0

    def send(self, talk):
        send(talk, self.place, self.pieces[self.sent % 2])
        self.sent += 1


def break_one(talk):
    """Opens a connection that breaks, the third."""
    connect(talk)
    send(talk, 2, BREAKING, fault=3)


def see_order(talk, order, calls):
    turns, *answers = order
    talk.begin("hub")
    senders = {}
    for place, letter in enumerate("ab"):
        connect(talk)
        senders[letter] = Sender(place, calls[place])
    acts = {"x": lambda: break_one(talk), "r": lambda: load(talk, BOOK), "o": lambda: load(talk, "")}
    for turn in turns:
        acts.get(turn, lambda: senders[turn].send(talk))()
    for place, letters in enumerate(answers):
        take(talk, place, b"".join(REPLIES[it] for it in letters), f"{turns}: connection {place}")


def see_orders(program, orders, calls):
    talk = Talk()
    for order in orders:
        see_order(talk, order, calls)
    talk.run(program)
    return f"{len(orders)} orders"


def halves(program):
    """Each call is answered when its second half comes."""
    return see_orders(program, CREATED, (CREATE_D, CREATE_E))


def between_connections(program):
    """Books are loaded between the halves of calls on two connections, and between their calls."""
    return see_orders(program, BOTH_READ, (READ_NOTES, READ_NOTES))
