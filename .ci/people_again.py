"""Scene of .ci/people: a batch whose connection breaks, by a server that is killed and restarted, and by a relay that drops calls and replies."""
import signal
import socket
import struct
import subprocess
import threading
import time

from people_lab import PATIENCE, Lab, built, free_port, pattern, see, write

# what nfsc says as it connects again, and what it says once it can't
AGAIN = "nfsc: the connection to 127.0.0.1:{} broke; connecting again, for at most 10 seconds\n"
CLOSED = "the server closed the connection"
# the operation SEQUENCE (RFC 8881, section 18.46); the word of a call that counts its groups, and how many words are before its first
# operation beside the groups
SEQUENCE, COUNT, BEFORE = 53, 13, 19
# the bytes of the file that a batch sends, in two WRITEs
SENT = pattern(40_000)


class Server:
    """A server of one port that is killed and started again."""

    def __init__(self, tree, port, *words):
        self.call = [built(tree, "nfsd"), "--port", str(port), *words]
        self.port, self.ran = port, None
        self.start()

    def start(self):
        self.ran = subprocess.Popen(self.call, stdout=subprocess.PIPE)
        see("what a server says first", self.ran.stdout.readline(), f"listening on 127.0.0.1:{self.port}\n".encode())

    def kill(self):
        self.ran.send_signal(signal.SIGKILL)
        self.ran.wait(timeout=PATIENCE)


class Batch:
    """A batch of a user, line by line."""

    def __init__(self, tree, port, user=0):
        words = [built(tree, "nfsc"), "--port", str(port), "--uid", str(user), "--gid", "0", "--timeout", "300", "batch"]
        self.ran = subprocess.Popen(words, stdin=subprocess.PIPE, stdout=subprocess.PIPE, stderr=subprocess.PIPE, text=True)

    def say(self, line):
        Lab.count += 1
        self.ran.stdin.write(f"{line}\n")
        self.ran.stdin.flush()

    def see(self, line, *wanted):
        self.say(line)
        for answer in wanted:
            see(f"the answer of a batch to {line}", self.ran.stdout.readline(), f"{answer}\n")

    def end(self):
        """What is left of its answers, what it says on standard error, and its status."""
        out, told = self.ran.communicate(timeout=PATIENCE)
        return out, told, self.ran.returncode


def read_record(stream):
    """The next record of a connection with its mark, or no bytes once the connection has ended."""
    mark = read_all(stream, 4)
    return mark and mark + read_all(stream, struct.unpack(">I", mark)[0] & 0x7FFF_FFFF)


def read_all(stream, length):
    found = b""
    while len(found) < length:
        piece = stream.recv(length - len(found))
        if not piece:
            return b""
        found += piece
    return found


def is_in_session(call):
    """Whether a call begins with SEQUENCE: it comes after mark, header, credentials, verifier, tag, minor version and count."""
    groups = struct.unpack_from(">I", call, 4 * COUNT)[0]
    return struct.unpack_from(">I", call, 4 * (BEFORE + groups))[0] == SEQUENCE


class Relay:
    """Passes calls and replies on between clients and a server. Each call of a session is cut off as it comes for the first time, in one way."""

    def __init__(self, port, cut, on_cut=lambda: None):
        self.server, self.cut, self.on_cut = port, cut, on_cut
        self.calls = []
        self.listener = socket.create_server(("127.0.0.1", 0))
        self.port = self.listener.getsockname()[1]
        threading.Thread(target=self.serve, daemon=True).start()

    def serve(self):
        while True:
            try:
                stream, _ = self.listener.accept()
            except OSError:
                return
            with stream, socket.create_connection(("127.0.0.1", self.server)) as beyond:
                try:
                    self.pass_on(stream, beyond)
                except OSError:
                    pass  # one of them has gone

    def pass_on(self, stream, beyond):
        while call := read_record(stream):
            cut = None
            if is_in_session(call):
                self.calls.append(call)
                cut = self.cut if len(self.calls) % 2 == 1 else None
            if cut == "call":
                return
            beyond.sendall(call if cut != "half a call" else call[: len(call) // 2])
            if cut == "half a call":
                return
            reply = read_record(beyond)
            if cut is not None:
                stream.sendall(reply[: len(reply) // 2 if cut == "half a reply" else 0])
                self.on_cut()
                return
            stream.sendall(reply)

    def stop(self):
        self.listener.close()


def restarts(tree, room):
    """A server that is killed between lines: each line is answered, and what was done is there."""
    server = Server(tree, free_port(), "--home", f"{room}/kept")
    try:
        batch = Batch(tree, server.port)
        batch.see("mkdir /d", "ok")
        for name in "abc":
            server.kill()
            server.start()
            batch.see(f"mkdir /d/{name}", "ok")
            batch.see(f"put /d/{name}/f '{name}'", "ok")
        server.kill()
        later = threading.Timer(1, server.start)
        later.start()
        batch.see("cat /d/b/f", "b")
        later.join()
        batch.see("mkdir /d/c", "line 9: refused CREATE EXIST")
        told = AGAIN.format(server.port) * 4 + "nfsc: line 9: there is an object of this name\n"
        see("a batch over four restarts", batch.end(), ("", told, 1))
    finally:
        server.kill()


def stops(tree, room):
    """A server that doesn't come again, and one without a home, end a batch."""
    for words, told, least in (((), "", 0), (("--home", f"{room}/gone"), AGAIN, 9.5)):
        server = Server(tree, free_port(), *(words or ("--concurrent",)))
        batch = Batch(tree, server.port)
        batch.see("mkdir /d", "ok")
        server.kill()
        if not words:
            server.start()
        begun = time.monotonic()
        batch.say("mkdir /d/e")
        wanted = ("line 2: failed 4\n", f"{told.format(server.port)}nfsc: line 2: {CLOSED}\n", 1)
        see(f"a batch of a server {words} that stops", batch.end(), wanted)
        took = time.monotonic() - begun
        see(f"the seconds of a batch of a server {words} that stops, of which {took:.2f} passed", least <= took < least + 6, True)
        server.kill()


LINES = (
    ("mkdir /r{}", "ok"),
    ("send {room}/bytes /r{}/f", "ok"),
    ("ln /r{}/f /r{}/g", "ok"),
    ("mv /r{}/f /r{}/h", "ok"),
    ("mkdir /r{}/h", "line 5: refused CREATE EXIST"),
    ("rm /r{}/g", "ok"),
    ("rm /r{}/g", "line 7: refused REMOVE NOENT"),
    ("chmod 0640 /r{}/h", "ok"),
    ("ls /r{}", "- 0640 0 0 40000 h"),
)

TOLD = "nfsc: line 5: there is an object of this name\nnfsc: line 7: there is no object of this name\n"


def cut_off(tree, room):
    """Each call of a batch is cut off once, in each way, and by a restart after its reply: the answers are the same, and no call is done twice."""
    write(f"{room}/bytes", SENT)
    server = Server(tree, free_port(), "--home", f"{room}/cut")
    try:
        for turn, cut in enumerate(("call", "half a call", "reply", "half a reply", "restart")):
            relay = Relay(server.port, cut, (lambda: (server.kill(), server.start())) if cut == "restart" else lambda: None)
            batch = Batch(tree, relay.port)
            for line, answer in LINES:
                batch.see(line.replace("{room}", room).replace("{}", str(turn)), answer)
            out, told, status = batch.end()
            relay.stop()
            again = AGAIN.format(relay.port)
            see(f"a batch whose calls are cut off by {cut}", (out, told.replace(again, ""), status), ("", TOLD, 1))
            see(f"the calls that are sent again after {cut}", relay.calls[::2] == relay.calls[1::2], True)
            see(f"how many calls are sent again after {cut}", told.count(again), len(relay.calls) // 2)
            see("calls of a batch", len(relay.calls) // 2 > len(LINES), True)
            words = [built(tree, "nfsc"), "--port", str(server.port), "--uid", "0", "--gid", "0", "get", f"/r{turn}/h"]
            got = subprocess.run(words, check=True, stdout=subprocess.PIPE, timeout=PATIENCE).stdout
            see(f"the bytes of a batch whose calls are cut off by {cut}", got == SENT, True)
    finally:
        server.kill()


def again(tree, room):
    restarts(tree, room)
    stops(tree, room)
    cut_off(tree, room)
