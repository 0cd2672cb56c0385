"""A server that listens, commands of users over it, and the expected output of both, for the scenes of .ci/people."""
import os
import signal
import socket
import subprocess
import sys

# the most seconds that a program may take
PATIENCE = 60

# the most bytes of a file, and of one WRITE
MOST, PIECE = 1_048_576, 32_768


def free_port():
    with socket.socket() as it:
        it.bind(("127.0.0.1", 0))
        return it.getsockname()[1]


def built(tree, name):
    """The path of a program of a tree."""
    path = os.path.abspath(f"{tree}/crates/{name}/out/{name}")
    if not os.access(path, os.X_OK):
        sys.exit(f"people: not built: {name}")
    return path


class Lab:
    """A server that listens, and commands of users over it."""

    count = 0

    def __init__(self, tree, *words):
        self.programs = {name: built(tree, name) for name in ("nfsd", "nfsc", "nfstrail")}
        self.port = free_port()
        self.server = subprocess.Popen([self.programs["nfsd"], "--port", str(self.port), *words], stdout=subprocess.PIPE)
        see("what the server says first", self.server.stdout.readline(), f"listening on 127.0.0.1:{self.port}\n".encode())

    def run(self, user, *command, given=b""):
        """What a command prints, on standard output and on standard error, and its status."""
        Lab.count += 1
        words = [self.programs["nfsc"], "--port", str(self.port), "--uid", str(user), "--gid", "100", *command]
        ran = subprocess.run(words, input=given, capture_output=True, timeout=PATIENCE, check=False)
        return ran.stdout, ran.stderr.decode(), ran.returncode

    def call(self, words, environment):
        """What a call prints, on standard output and on standard error, and its status."""
        Lab.count += 1
        ran = subprocess.run([self.programs["nfsc"], *words], capture_output=True, env=environment, timeout=PATIENCE, check=False)
        return ran.stdout, ran.stderr.decode(), ran.returncode

    def see(self, user, command, said, told="", status=None, given=b""):
        """A command, what it has to print, and what it has to tell on standard error; its status is 1 where that is something."""
        wanted = (said if isinstance(said, bytes) else said.encode(), told, (1 if told else 0) if status is None else status)
        see(f"user {user}: {' '.join(command)}", self.run(user, *command, given=given), wanted)

    def trail(self, *words):
        """What nfstrail prints, on standard output and on standard error, and its status."""
        Lab.count += 1
        ran = subprocess.run([self.programs["nfstrail"], *words], capture_output=True, timeout=PATIENCE, check=False)
        return ran.stdout.decode(errors="surrogateescape"), ran.stderr.decode(), ran.returncode

    def stop(self):
        self.server.send_signal(signal.SIGTERM)
        self.server.wait(timeout=PATIENCE)


def denied(place):
    """What nfsc says where the access control lists of this place refuse something."""
    return f"nfsc: {place}: the access control list doesn't allow it to this user\n"


def see(what, given, wanted):
    if given != wanted:
        sys.exit(f"people: {what}: {str(given)[:600]}\n  and not {str(wanted)[:600]}")


def pattern(length):
    """Bytes of each value."""
    return bytes((number * 7 + number // 256) % 256 for number in range(length))


def write(path, content):
    with open(path, "wb") as it:
        it.write(content)


def read(path):
    with open(path, "rb") as it:
        return it.read()
