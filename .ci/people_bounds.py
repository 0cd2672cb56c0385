"""Scenes of .ci/people at the limits of what is accepted: names, depths, directories, ACLs and lengths; closed output; a server that ends."""
import contextlib
import os
import random
import signal
import socket
import subprocess
import threading
import time

from people_lab import MOST, PATIENCE, PIECE, Lab, built, denied, free_port, pattern, read, see, write

TOO_LONG = "nfsc: a name has at most 255 bytes\n"

NAMES = (
    " ", "a b", "  two  ", "grüße", "日本語", "é" * 127 + "x", "x" * 255, "\x01", "\x7f", "\t", "\x1b[31mred", "-R", "--force", "...", "\\", "'", '"', "#",
)


def shown(name):
    """A name as it is printed: control characters and the backslash by their numbers."""
    return "".join(f"\\x{ord(it):02x}" if ord(it) < 32 or it in "\x7f\\" else it for it in name)


def names(lab, _room):
    """Names with spaces, UTF-8, control characters and 255 bytes are as any others; longer ones are refused."""
    lab.see(1001, ["mkdir", "/lab/names"], "ok\n")
    for name in NAMES:
        path = f"/lab/names/{name}"
        lab.see(1001, ["put", path, f"of {name}"], "ok\n")
        lab.see(1001, ["get", path], f"of {name}")
        lab.see(1001, ["mv", path, "/lab/names/moved"], "ok\n")
        lab.see(1001, ["cp", "/lab/names/moved", path], "ok\n")
        lab.see(1001, ["rm", "/lab/names/moved"], "ok\n")
    lines = lab.run(1001, "list", "/lab/names")[0].decode().splitlines()
    see("the names of a directory", sorted(line.split(" ", 8)[8] for line in lines), sorted(shown(name) for name in NAMES))
    lines = lab.run(1001, "list", "-R", "/lab/names")[0].decode().splitlines()
    see("the paths of a directory", sorted(line.split(" ", 8)[8] for line in lines), sorted(f"/lab/names/{shown(name)}" for name in NAMES))
    for name in ("x" * 256, "é" * 128):
        path = f"/lab/names/{name}"
        for op, *command in (
            ("OPEN", "put", path, "v"), ("OPEN", "send", "-", path), ("OPEN", "cp", "/lab/names/a b", path), ("CREATE", "mkdir", path),
            ("CREATE", "ln", "-s", "x", path), ("LINK", "ln", "/lab/names/a b", path), ("RENAME", "mv", "/lab/names/a b", path), ("REMOVE", "rm", path),
            ("LOOKUP", "get", path), ("LOOKUP", "stat", path), ("LOOKUP", "rm", "-R", path), ("LOOKUP", "mkdir", "-p", f"{path}/x"),
            ("LOOKUP", "why", "1001", "r", path), ("LOOKUP", "setfacl", path, "A::OWNER@:RW"),
        ):
            lab.see(1001, command, f"refused {op} NAMETOOLONG\n", TOO_LONG)
    lab.see(1001, ["get", "/lab/names/a b"], "of a b")
    lab.see(1001, ["rm", "-R", "/lab/names"], "ok\n")


def depths(lab, _room):
    """A path of 40 directories is as any other."""
    below = "".join(f"/{number}" for number in range(40))
    deep = f"/lab/deep{below}"
    lab.see(1001, ["mkdir", "-p", deep], "ok\n")
    lab.see(1001, ["put", f"{deep}/f", "far down"], "ok\n")
    lab.see(1001, ["mv", f"{deep}/f", f"{deep}/g"], "ok\n")
    lab.see(1001, ["get", f"{deep}/g"], "far down")
    number = lab.run(1001, "stat", f"{deep}/g")[0].decode().split()[1]
    lab.see(1001, ["path", number], f"{deep}/g\n")
    lab.see(1001, ["setfacl", "-R", "/lab/deep", "A::OWNER@:RWX"], "ok\n")
    lab.see(1001, ["getfacl", deep], "A::OWNER@:rwaDxtTnNcCy\n")
    see("how many are below", len(lab.run(1001, "list", "-R", "/lab/deep")[0].splitlines()), 41)
    lab.see(1002, ["get", f"{deep}/g"], "refused LOOKUP ACCESS\n", denied(f"on the way to {deep}/g"))
    lab.see(1001, ["rm", "-R", "/lab/deep"], "ok\n")


def many(lab, _room):
    """A directory has 4,096 names, and no more."""
    lab.see(1001, ["mkdir", "/lab/many"], "ok\n")
    made = [f"name {number}" for number in range(4096)]
    script = "".join(f"mkdir '/lab/many/{name}'\n" for name in made)
    lab.see(1001, ["batch"], "ok\n" * 4096, given=script.encode())
    lab.see(1001, ["mkdir", "/lab/many/more"], "refused CREATE NOSPC\n", "nfsc: the directory has 4,096 names, or the server has 16,384 objects, or its disk is full\n")
    for command, columns in (("ls", 5), ("list", 8)):
        said, told, status = lab.run(1001, command, "/lab/many")
        listed = [line.split(" ", columns)[columns] for line in said.decode().splitlines()]
        see(f"what {command} has of a full directory", (sorted(listed), told, status), (sorted(made), "", 0))
    lab.see(1001, ["rm", "-R", "/lab/many"], "ok\n")


def long_lists(lab, _room):
    """A list that is set has at most 59 entries, and by a new mode up to 64."""
    full = "nfsc: a list that is set has at most 59 entries, or the server's disk is full\n"
    lab.see(1001, ["put", "/lab/listed", "x"], "ok\n")
    own, others = "A::1001:rwatTnNcCoy", [f"A::{number}:r" for number in range(2000, 2064)]
    lab.see(1001, ["setfacl", "/lab/listed", own, *others[:58]], "ok\n")
    lab.see(1001, ["getfacl", "/lab/listed"], "\n".join([own, *others[:58]]) + "\n")
    for count in (59, 60, 64):
        lab.see(1001, ["setfacl", "/lab/listed", own, *others[:count]], "refused SETATTR NOSPC\n", full)
    lab.see(1001, ["addfacl", "/lab/listed", "60", "A::3000:r"], "refused SETATTR NOSPC\n", full)
    lab.see(1001, ["setfacl", "-R", "/lab/listed", own, *others[:59]], "",
        full.replace("nfsc: ", "nfsc: /lab/listed: ") + "nfsc: these were refused, and the others were done\nnfsc: refused 1\n")
    lab.see(1001, ["getfacl", "/lab/listed"], "\n".join([own, *others[:58]]) + "\n")
    lab.see(1001, ["chmod", "0640", "/lab/listed"], "ok\n")
    wanted = [
        "A::OWNER@:rwatTcCoy", "D::OWNER@:x", "A::1001:rtTnNcCoy", *others[:58], "A::GROUP@:r", "D::GROUP@:wax", "A::EVERYONE@:tcy",
    ]
    see("how many there are then", len(wanted), 64)
    lab.see(1001, ["getfacl", "/lab/listed"], "\n".join(wanted) + "\n")
    said = lab.run(1001, "why", "2057", "r", "/lab/listed")[0].decode().splitlines()
    see("why the last of them may read", (said[0], len(said)), ("2057 is granted read-data on /lab/listed", 65))
    lab.see(1001, ["addfacl", "/lab/listed", "A::3000:r"], "refused SETATTR NOSPC\n", full)
    lab.see(1001, ["delfacl", "/lab/listed", "60", "61", "62", "63", "64"], "ok\n")
    lab.see(1001, ["getfacl", "/lab/listed"], "\n".join(wanted[:59]) + "\n")
    lab.see(1001, ["rm", "/lab/listed"], "ok\n")


LENGTHS = (4095, 4096, 4097, PIECE - 1, PIECE, PIECE + 1, 2 * PIECE - 1, 2 * PIECE, 2 * PIECE + 1, MOST - 1, MOST, 1, 0)


def lengths(lab, room):
    """Exactly the bytes come and go, of lengths at the bounds of a read and of a WRITE, and of others; as files, as a pipe, and byte by byte."""
    here, there = f"{room}/sent", f"{room}/got"
    chance = random.Random(os.urandom(8))
    for length in (*LENGTHS, *(chance.randrange(MOST + 1) for _ in range(6))):
        content = chance.randbytes(length)
        write(here, content)
        lab.see(1001, ["send", here, "/lab/long"], "ok\n")
        lab.see(1001, ["get", "/lab/long", there], "ok\n")
        see(f"the {length} bytes that were got", read(there) == content, True)
        lab.see(1001, ["send", "-", "/lab/long"], "ok\n", given=content[::-1])
        see(f"the {length} bytes of a pipe", lab.run(1001, "get", "/lab/long")[0] == content[::-1], True)
    content = chance.randbytes(PIECE + 1)
    see("what is said of bytes one by one", byte_by_byte(lab, "/lab/long", content), (b"ok\n", "", 0))
    see("the bytes that came one by one", lab.run(1001, "get", "/lab/long")[0] == content, True)
    lab.see(1001, ["rm", "/lab/long"], "ok\n")


def byte_by_byte(lab, path, content):
    """What `send - P` prints of bytes each of which is a read of its own."""
    ours, theirs = socket.socketpair(socket.AF_UNIX, socket.SOCK_SEQPACKET)
    Lab.count += 1
    words = [lab.programs["nfsc"], "--port", str(lab.port), "--uid", "1001", "--gid", "100", "send", "-", path]
    with subprocess.Popen(words, stdin=theirs, stdout=subprocess.PIPE, stderr=subprocess.PIPE) as ran:
        theirs.close()
        with ours:
            for number in range(len(content)):
                ours.send(content[number : number + 1])
        said, told = ran.communicate(timeout=PATIENCE)
    return said, told.decode(), ran.returncode


def ran_without(descriptors, words, given=b""):
    """What a program says whose descriptors of these numbers are closed: on those of standard output and error that aren't, and its status."""
    def close():
        for number in descriptors:
            os.close(number)

    Lab.count += 1
    ran = subprocess.run(words, input=given, capture_output=True, timeout=PATIENCE, check=False, preexec_fn=close)
    return ran.stdout.decode(), ran.stderr.decode(), ran.returncode


def contents(folder):
    return {f"{at}/{name}": read(f"{at}/{name}") for at, _, found in os.walk(folder) for name in found}


def closed(tree, lab, room):
    """Where standard output is closed, each program says so and fails; nothing that was meant for it comes elsewhere."""
    bad = "Bad file descriptor (os error 9)\n"
    nfsc = [lab.programs["nfsc"], "--port", str(lab.port), "--uid", "1001", "--gid", "100"]
    for command in (["ls", "/"], ["list", "-R", "/"], ["stat", "/lab"], ["get", "/lab/none"], ["mkdir", "/lab/c"], ["rm", "/lab/c"]):
        said, told, status = ran_without([1], [*nfsc, *command])
        see(f"{command} without standard output", (said, told.splitlines()[-1:], status), ("", [f"nfsc: {bad[:-1]}"], 1))
    see("a batch without standard output", ran_without([1], [*nfsc, "batch"], b"mkdir /lab/c\nmkdir /lab/d\n"), ("", f"nfsc: {bad}", 1))
    lab.see(1001, ["rm", "/lab/c"], "ok\n")
    lab.see(1001, ["rm", "/lab/d"], "refused REMOVE NOENT\n", "nfsc: there is no object of this name\n")
    lab.see(1001, ["put", "/lab/c", "kept"], "ok\n")
    unread = "nfsc: the file can't be read\nnfsc: file\n"
    see("a send without standard input", ran_without([0], [*nfsc, "send", "-", "/lab/c"]), ("", unread, 1))
    lab.see(1001, ["get", "/lab/c"], "kept")
    see("without standard error", ran_without([2], [*nfsc, "get", "/lab/none"]), ("refused LOOKUP NOENT\n", "", 1))
    see("without any of the three", ran_without([0, 1, 2], [*nfsc, "get", "/lab/c"]), ("", "", 1))
    lab.see(1001, ["rm", "/lab/c"], "ok\n")
    programs = {name: built(tree, name) for name in ("acl_lines", "nfslab", "nfstore")}
    see("acl_lines", ran_without([1], [programs["acl_lines"]], b"mode f 0 0 -\n"), ("", f"acl_lines: {bad}", 1))
    see("nfslab", ran_without([1], [programs["nfslab"]], b"0 0 ls /\n"), ("", "nfslab: failed 5\nstandard output: it can't be written\n", 1))
    home = f"{room}/closed"
    served(lab.programs["nfsd"], home)
    before = contents(home)
    see("nfstrail", ran_without([1], [lab.programs["nfstrail"], home]), ("", f"nfstrail: standard output: {bad}", 1))
    for words in ([f"{home}/store"], [f"{home}/store", "--tree"]):
        see(f"nfstore {words[1:]}", ran_without([1], [programs["nfstore"], *words]), ("", f"nfstore: {bad}", 1))
    see("the files of the home", contents(home) == before, True)


def served(program, home):
    """A server without standard output serves as any other: what listens is seen by who connects."""
    os.mkdir(home)
    port, until = free_port(), time.monotonic() + PATIENCE
    server = subprocess.Popen([program, "--port", str(port), "--home", home], stderr=subprocess.PIPE, preexec_fn=lambda: os.close(1))
    try:
        while not listens(port):
            see("a server without standard output", (server.poll(), time.monotonic() < until), (None, True))
            time.sleep(0.02)
    finally:
        server.send_signal(signal.SIGTERM)
    see("what it says", server.communicate(timeout=PATIENCE)[1], b"")


def listens(port):
    try:
        socket.create_connection(("127.0.0.1", port), timeout=PATIENCE).close()
        return True
    except OSError:
        return False


def received(peer):
    """What comes of a peer, or nothing where it has gone."""
    try:
        return peer.recv(65536)
    except OSError:
        return b""


class Between:
    """Stands between a client and a server, and sends the server a signal after so many bytes of the client."""

    def __init__(self, server, port, most, sign):
        self.server, self.most, self.sign = server, most, sign
        self.listener = socket.create_server(("127.0.0.1", 0))
        self.port = self.listener.getsockname()[1]
        self.behind = socket.create_connection(("127.0.0.1", port))
        threading.Thread(target=self.forth, daemon=True).start()

    def forth(self):
        peer = self.listener.accept()[0]
        back = threading.Thread(target=self.back, args=(peer,), daemon=True)
        back.start()
        count = 0
        while data := received(peer):
            count += len(data)
            if count > self.most and self.sign:
                self.server.send_signal(self.sign)
                self.sign = None
            with contextlib.suppress(OSError):  # the server has gone
                self.behind.sendall(data)
        back.join()
        peer.close()

    def back(self, peer):
        with contextlib.suppress(OSError):  # the client has gone
            while data := received(self.behind):
                peer.sendall(data)
            peer.shutdown(socket.SHUT_WR)


def goes(tree, room):
    """A server stops, or is killed, while a file is sent: it is said, and what the file has then is the first of the bytes, by whole WRITEs."""
    write(f"{room}/old", bytes(MOST))
    write(f"{room}/new", pattern(MOST))
    for sign, patience, sentence in (
        (signal.SIGSTOP, ["--timeout", "3"], "no answer from 127.0.0.1:{} in 3 seconds"),
        (signal.SIGKILL, [], "the server closed the connection"),
    ):
        lab = Lab(tree, "--concurrent", "--store", f"{room}/goes")
        try:
            lab.see(0, ["send", f"{room}/old", "/f"], "ok\n")
            between = Between(lab.server, lab.port, 10 * PIECE, sign)
            words = ["--port", str(between.port), "--uid", "0", "--gid", "0", *patience, "send", f"{room}/new", "/f"]
            told = f"nfsc: /f may have only a part of the bytes now\nnfsc: {sentence.format(between.port)}\n"
            see(f"a send at {sign.name}", lab.call(words, {}), (b"failed 4\n", told, 1))
        finally:
            lab.server.kill()
            lab.server.wait(timeout=PATIENCE)
        lab = Lab(tree, "--concurrent", "--store", f"{room}/goes")
        got = lab.run(0, "get", "/f")[0]
        lab.stop()
        see(f"the {len(got)} bytes after {sign.name}", (pattern(MOST).startswith(got), len(got) % PIECE, 5 * PIECE < len(got) < MOST), (True, 0, True))


def wrong_words(tree, lab):
    """Words that a program doesn't take: the fault begins with its name. Help is on standard output where the program is for its administrator alone."""
    short = {"nfsc": ["--port", "1", "--uid", "0", "--gid", "0"], "nfstore": ["."], "nfstrail": ["."], "acl_lines": [], "nfslab": [], "nfsd": []}
    for name, words in short.items():
        program = built(tree, name)
        said, told, status = ran_without([], [program, "--nonsense", *words])
        start = f"{name}: unexpected argument '--nonsense' found\n"
        see(f"{name} --nonsense", (said, told.startswith(start), "error:" in told, len(told.splitlines()) > 2, status), ("", True, False, True, 2))
        said, told, status = ran_without([], [program, "--help", *words])
        is_new = name in ("nfstore", "nfstrail")
        text, other = (said, told) if is_new else (told, said)
        see(f"{name} --help", (other, "error:" in text, len(text.splitlines()) > 2, status), ("", False, True, 0 if is_new else 2))
    for words, wanted in (
        (["nonsense"], "nfsc: there is no command 'nonsense'"),
        (["ls"], "nfsc: the command 'ls' wants these words: ls P"),
        (["get"], "nfsc: the command 'get' wants these words: get P [FILE]"),
    ):
        said, told, status = ran_without([], [lab.programs["nfsc"], "--port", "1", "--uid", "0", "--gid", "0", *words])
        see(f"nfsc {words}", (said, told.splitlines()[0], status), ("", wanted, 2))


SCENES = (names, depths, many, long_lists, lengths)
