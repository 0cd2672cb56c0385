"""Connections: closed, broken, and the largest number that may be open at once."""
from scripts.hub_lines import close, connect, send
from scripts.probe import Talk, expect
from scripts.streams import BREAKING, NULL, NULL_REPLY

# the numbers of faults
TOO_MANY, NO_SUCH, BROKEN = 1, 2, 3

# the most connections that are open at once
MOST = 16


def see_closed(talk):
    """A connection that is closed is gone, also where another one is open."""
    connect(talk)
    close(talk, 0)
    close(talk, 0, NO_SUCH)
    send(talk, 0, b"\0", fault=NO_SUCH)
    expect(talk, "take 0 8", f"{NO_SUCH} ")
    connect(talk)
    send(talk, 1, b"\0")
    close(talk, 0, NO_SUCH)
    close(talk, 1)


def see_broken(talk):
    """The reply to a call before what breaks the connection still comes, here 20 bytes and then the others; a call then has none."""
    connect(talk)
    send(talk, 2, NULL + BREAKING, fault=BROKEN)
    send(talk, 2, NULL, fault=BROKEN)
    expect(talk, "take 2 20", f"0 {NULL_REPLY[:20].hex()}")
    expect(talk, "drop 2 20", "0 8")
    expect(talk, "drop 2 20", "0 0")
    close(talk, 2)


def see_told_broken(talk):
    """A connection says whether it is broken, until it is closed."""
    connect(talk)
    expect(talk, "broken 3", "no")
    send(talk, 3, BREAKING, fault=BROKEN)
    expect(talk, "broken 3", "yes")
    close(talk, 3)
    expect(talk, "broken 3", "gone")


def see_full(talk):
    """Sixteen are open at once, a broken one among them, and no more; once it is closed another one is."""
    for _ in range(MOST):
        connect(talk)
    last = 3 + MOST
    send(talk, last, BREAKING, fault=BROKEN)
    connect(talk, TOO_MANY)
    close(talk, last)
    connect(talk)
    send(talk, last + 1, NULL)
    expect(talk, f"take {last + 1} 64", f"0 {NULL_REPLY.hex()}")


def connections(program):
    """Connections are closed, broken and counted."""
    talk = Talk()
    talk.begin("hub")
    for see in (see_closed, see_broken, see_told_broken, see_full):
        see(talk)
    talk.run(program)
    return f"{len(talk.asked)} lines"
