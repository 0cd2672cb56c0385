"""Each growth of a server's tree fails: over each size of a heap about the least that has a server, a call that allocates is done, or answered DELAY with the state unchanged."""
from scripts.heaps import PAGE, in_heaps, least_size, steps
from scripts.probe import Difference, digits
from scripts.servers import ask_call
from scripts.streams import DELAY
from scripts.words import BOB, bytes_of, call_of

# a book with a group, which bob is in
BOOK = """domain = 'lab'
root_owner = 0
root_group = 0
root_mode = 493
[users]
bob = 1002
[groups]
staff = 100
[members]
staff = ['bob']
"""

# every object and every name of a server here has a lower number
LIMIT = 12

# calls on a root with the file `f`, each OK with ample memory, whose last operation may want memory, or may not
GROWING, STEADY = True, False
CALLS = [
    ("PUTROOTFH CREATE 2 'directory 0 0", GROWING),
    ("PUTROOTFH CREATE 5 ~10 'link 0 0", GROWING),
    ("PUTROOTFH LOOKUP 'link SAVEFH PUTROOTFH LINK ~ff", GROWING),
    ("PUTROOTFH SAVEFH LOOKUP 'directory RENAME 'link ~80", GROWING),
    ("PUTROOTFH CREATE 2 'many #3b", GROWING),
    ("PUTROOTFH CREATE 2 'parts +58+59 ( 0 1d 1d*A:3:1f07ff:1002 0 1e 1e*U:20:4:EVERYONE@ )", GROWING),
    ("PUTROOTFH LOOKUP 'parts CREATE 5 't 'watched +59 ( 0 1e 1e*L:20:4:EVERYONE@ )", GROWING),
    ("PUTROOTFH LOOKUP 'f WRITE anon ^0 0 ~40", GROWING),
    ("PUTROOTFH LOOKUP 'f VERIFY +12 ( 2 2 30 47 'EVERYONE@ 0 0 1f07ff 'EVERYONE@ )", GROWING),
    ("PUTROOTFH LOOKUP 'f NVERIFY +12 ( ~400 )", GROWING),
    ("PUTROOTFH LOOKUP 'f VERIFY +58+59 ( 0 1 0 0 1f07ff 'EVERYONE@ 0 1 2 30 47 'EVERYONE@ )", GROWING),
    ("PUTROOTFH LOOKUP 'f READ anon ^0 40", STEADY),
    ("PUTROOTFH LOOKUP 'f GETATTR 3 ffffffff ffffffff ffffffff", STEADY),
    ("PUTROOTFH LOOKUP 'f COMMIT ^0 0", STEADY),
    ("PUTROOTFH LOOKUP 'f SETATTR anon +4+12 ( ^1400 3b *3a 0 0 1f07ff 'EVERYONE@ )", GROWING),
    ("PUTROOTFH LOOKUP 'f SETATTR anon +59 ( 0 1 U:20:4:EVERYONE@ )", GROWING),
    ("PUTROOTFH LOOKUP 'f SETATTR anon +58 ( 0 3b *3a 0 0 1f07ff 'EVERYONE@ )", GROWING),
    ("PUTROOTFH LOOKUP 'f SETATTR anon +33+59 ( 1ff 0 1 U:20:2:EVERYONE@ )", GROWING),
    ("PUTROOTFH LOOKUP 'directory SETATTR anon +33 ( 1ff )", GROWING),
    ("PUTROOTFH OPEN 0 3 0 0 0 ~40 1 1 +4+33 ( ^400 1a4 ) 0 'made", GROWING),
    ("PUTROOTFH OPEN 0 1 0 0 0 ~40 1 1 +33+59 ( 1a4 0 3b 3b*U:20:4:EVERYONE@ ) 0 'watched", GROWING),
    ("PUTROOTFH OPEN 0 1 0 0 0 ~100 0 0 'f", GROWING),
    ("PUTROOTFH READDIR ^0 0 0 0 4000 3 ffffffff ffffffff ffffffff", STEADY),
    ("PUTROOTFH LOOKUP 'directory READDIR ^0 0 0 0 4000 3 ffffffff ffffffff ffffffff", STEADY),
    ("PUTROOTFH LOOKUP 'directory LOOKUPP", STEADY),
    ("PUTROOTFH LOOKUP 'directory LOOKUP ~80 READLINK", STEADY),
    ("PUTROOTFH LOOKUP 'directory LOOKUP ~80 GETFH", STEADY),
    ("PUTROOTFH SAVEFH RESTOREFH ACCESS 3f", STEADY),
    ("PUTROOTFH REMOVE ~ff", STEADY),
    ("PUTROOTFH LOOKUP 'directory REMOVE ~80", STEADY),
    ("PUTROOTFH REMOVE 'directory", STEADY),
]

OK = bytes_of("ok")


class Look:
    """The tree, the open files, the lines that were written to the trail, and the next tick and stamp."""

    def __init__(self, talk):
        self.tree, self.opens, self.counts = (talk.ask(it) for it in (f"tree {LIMIT}", "opens", "counts"))

    def seen(self):
        total, _, tick, stamp = self.counts.numbers()
        return self.tree.answer, self.opens.answer, total, tick, stamp


class Asked:
    """What is asked of a server: each call with a look after it, and then another book."""

    def __init__(self, talk):
        self.first = Look(talk)
        self.made = [(ask_call(talk, False, BOB, 0, call_of(call)), Look(talk)) for call, _ in CALLS]
        self.loaded, self.last = talk.ask(f"load {digits(BOOK)}"), Look(talk)

    def delayed(self):
        """The calls that are delayed, each with all as it was, after which others may not be OK; another book changes nothing."""
        found, before = [], self.first
        for (call, grows), (asked, after) in zip(CALLS, self.made):
            status = asked.bytes()[:4]
            if status == DELAY and (not grows or after.seen() != before.seen()):
                raise Difference(f"delayed, or changed: {call}")
            if status == DELAY:
                found.append(call)
            elif not found and status != OK:
                raise Difference(f"{call}: {asked.answer}")
            before = after
        if (self.loaded.answer, self.last.seen()) != ("ok", before.seen()):
            raise Difference("a book changes what stands there")
        return found


def delayed_in(heap):
    try:
        return heap.asked.delayed()
    except Difference as error:
        raise Difference(f"a heap of {heap.size}: {error}") from error


def growth(program):
    """Each call that may want memory is delayed in a heap, and no other; in an ample one none is."""
    least = least_size(program, "file")
    sizes = (steps(least, 1, 1), steps(max(0, least - PAGE), 64, 640))
    delayed = [delayed_in(heap) for it in sizes for heap in in_heaps(program, "file", it, Asked) if heap.has_house()]
    missing = {call for call, grows in CALLS if grows} - {call for it in delayed for call in it}
    if missing:
        raise Difference(f"delayed in no heap: {sorted(missing)}")
    if [] not in delayed:
        raise Difference("no ample heap")
    return f"{len(delayed)} heaps, {sum(map(len, delayed))} delays, {delayed.count([])} ample"
