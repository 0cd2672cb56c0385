"""Scenes of metrics.prom, the numbers of a home's server, for .ci/together."""
import os
import re
import time

from together_lab import PATIENCE, ROOT, Server, Session, create_of, lookup, make_file, see
from together_office import OFFICE, read_at, write_at

# a sample, in the text format of Prometheus
SAMPLE = re.compile(r'(zoclesavory_[a-z_]+)(\{[a-z]+="[^"\\\n]*"(?:,[a-z]+="[^"\\\n]*")*\})? (\d+(?:\.\d{6})?)')
STANDARD = {"connections": 16, "clients": 64, "sessions": 64, "opens": 4096, "objects": 16384}
OFFICE_LIMITS = {"connections": 256, "clients": 256, "sessions": 256, "opens": 65536, "objects": 1048576}


def samples(text):
    """The samples of a text by their names and labels. Each metric has its help and its type before its samples, and comes once."""
    found, kinds, last = {}, {}, None
    for line in text.split("\n")[:-1]:
        if line.startswith("# HELP "):
            last = line.split(" ")[2]
            see("a metric that comes once", last in kinds, False)
        elif line.startswith("# TYPE "):
            see("a type after its help", line.split(" ")[2], last)
            kinds[last] = line.split(" ")[3]
        else:
            sample = SAMPLE.fullmatch(line)
            see(f"a sample: {line}", sample is not None and sample[1] == last and kinds.get(last) in ("gauge", "counter"), True)
            see("a counter's name", (kinds[last] == "counter"), last.endswith("_total"))
            series = sample[1].removeprefix("zoclesavory_") + (sample[2] or "")
            see("a series that comes once", series in found, False)
            found[series] = float(sample[3]) if "." in sample[3] else int(sample[3])
    see("the end of the text", text[-1:], "\n")
    return found


def numbers(home, is_right):
    """The numbers of a home, once they are so."""
    until = time.monotonic() + PATIENCE
    while True:
        if os.path.exists(f"{home}/metrics.prom"):
            with open(f"{home}/metrics.prom", encoding="ascii") as it:
                found = samples(it.read())
            if is_right(found):
                return found
        see("numbers in time", time.monotonic() < until, True)
        time.sleep(0.05)


def calls(operation, status):
    return f'calls_total{{operation="{operation}",status="{status}"}}'


def at_rest(found):
    return found["connections"] == 0 and calls("SEQUENCE", "OK") in found


def some_calls(server):
    """A directory that is closed to others, a file of 5 bytes, a READ of the last 3, and a LOOKUP that is refused."""
    root = Session(server, 0x61, 0)
    see("the status of CREATE", root.status(2, ROOT + create_of(b"closed", 0o700)), 0)
    see("the status of OPEN", root.status(2, ROOT + make_file(b"file", 0o644)), 0)
    see("the status of WRITE", root.status(3, ROOT + lookup(b"file") + write_at(0, b"12345")), 0)
    see("the status of READ", root.status(3, ROOT + lookup(b"file") + read_at(2, 100)), 0)
    bob = Session(server, 0x62, 1002)
    see("the status of a LOOKUP that is refused", bob.status(3, ROOT + lookup(b"closed") + lookup(b"x")), 13)
    root.peer.close()
    bob.peer.close()


def numbers_of_a_home(program, room):
    """A home has its server's numbers in each profile. They count what was called, and begin anew at a start, which replays calls without counting them."""
    for options, limits in (((), STANDARD), (OFFICE, OFFICE_LIMITS)):
        home = f"{room}/home{len(options)}"
        begun = time.time()
        server = Server(program, "--home", home, *options)
        see("no calls yet", [it for it in numbers(home, lambda found: True) if it.startswith("calls")], [])
        some_calls(server)
        found = numbers(home, at_rest)
        see("the limits", {it: found[f"{it}_limit"] for it in limits}, limits)
        used = {"connections": 0, "clients": 2, "sessions": 2, "opens": 1, "objects": 3, "content_bytes": 5, "acl_refusals_total": 1}
        used |= {"read_bytes_total": 3, "written_bytes_total": 5, "full": 0, "book_epoch": 1}
        see("what is used", {it: found[it] for it in used}, used)
        wanted = {
            calls("EXCHANGE_ID", "OK"): 2, calls("CREATE_SESSION", "OK"): 2, calls("SEQUENCE", "OK"): 5, calls("PUTROOTFH", "OK"): 5,
            calls("CREATE", "OK"): 1, calls("OPEN", "OK"): 1, calls("LOOKUP", "OK"): 3, calls("WRITE", "OK"): 1, calls("READ", "OK"): 1,
            calls("LOOKUP", "ACCESS"): 1,
        }
        see("the calls", {series: count for series, count in found.items() if series.startswith("calls")}, wanted)
        see("the store", (found["generation"] >= 1, found["syncs_total"] >= 4, found["log_bytes"] > 500, found["checkpoint_age_seconds"] < 60), (True,) * 4)
        see("the start", begun - 2 < found["start_time_seconds"] < time.time() + 2, True)
        see("the slowest sync", 0 <= found["slowest_sync_seconds"] < 30, True)
        server.stop()
        server = Server(program, "--home", home, *options)
        peer = server.connect()
        again = numbers(home, lambda found: found["start_time_seconds"] and found["syncs_total"] < 4)
        kept = ("clients", "sessions", "opens", "objects", "content_bytes")
        see("what is kept", {it: again[it] for it in kept}, {it: found[it] for it in kept})
        see("no calls after a start", [it for it in again if it.startswith("calls")], [])
        peer.close()
        server.stop()


def numbers_that_cannot_be_written(program, room):
    """Where metrics.prom can't be written that is said once, and serving goes on."""
    home = f"{room}/home"
    os.makedirs(f"{home}/metrics.prom/in the way")
    server = Server(program, "--home", home)
    some_calls(server)
    time.sleep(0.5)
    server.stop(f"nfsd: {home}/metrics.prom: it can't be written: Is a directory (os error 21)\n")


SCENES = (numbers_of_a_home, numbers_that_cannot_be_written)
