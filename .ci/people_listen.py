"""Scene of .ci/people: servers that listen on other addresses, and which connections they accept."""
import errno
import os
import re
import signal
import socket
import struct
import subprocess

from people_lab import MOST, PATIENCE, Lab, built, free_port, see

# a call of procedure NULL (RFC 5531), and the first bytes of its reply
NULL = struct.pack(">11I", 0x80000028, 7, 0, 2, 100003, 4, 0, 0, 0, 0, 0)
REPLY = struct.pack(">3I", 0x80000018, 7, 1)
# a network of which no machine is (RFC 5737)
ELSEWHERE = "198.51.100.0/24"
# ports below 1024, which only root may have
PRIVILEGED = range(600, 1024)
# any port
FREE = (0,)


def other_address():
    """An IPv4 address of this machine that isn't loopback, or None."""
    try:
        said = subprocess.run(["ip", "-4", "-o", "addr"], capture_output=True, text=True, check=True).stdout
    except (OSError, subprocess.CalledProcessError):
        return None
    found = [it for it in re.findall(r"inet (\d+\.\d+\.\d+\.\d+)/", said) if not it.startswith("127.")]
    return found[0] if found else None


def bind(stream, host, ports):
    """Gives a stream the first of these ports that is free."""
    for port in ports:
        try:
            stream.bind((host, port))
            return
        except OSError as error:
            if error.errno != errno.EADDRINUSE:
                raise


class Listener:
    """A server with these words, and the first line that it has to say."""

    def __init__(self, tree, names, *words):
        self.port = free_port()
        call = [built(tree, "nfsd"), "--port", str(self.port), "--concurrent", *words]
        self.ran = subprocess.Popen(call, stdout=subprocess.PIPE, stderr=subprocess.PIPE, text=True)
        said = ", ".join(f"{name}:{self.port}" for name in names)
        see(f"what nfsd {' '.join(words)} says first", self.ran.stdout.readline(), f"listening on {said}\n")

    def stop(self):
        self.ran.send_signal(signal.SIGTERM)
        self.ran.wait(timeout=PATIENCE)

    def answers(self, host, ports=FREE):
        """Whether a NULL call is answered that comes from one of these ports; else the connection is closed."""
        family = socket.AF_INET6 if ":" in host else socket.AF_INET
        with socket.socket(family, socket.SOCK_STREAM) as stream:
            stream.settimeout(PATIENCE)
            bind(stream, host, ports)
            stream.connect((host, self.port))
            try:
                stream.sendall(NULL)
                return stream.recv(MOST).startswith(REPLY)
            except ConnectionError:
                return False


def see_words(tree):
    """Words that name nobody, or no network, are refused with a sentence."""
    for words, said in (
        (["--listen", "192.0.2.7"], "names an address that other machines reach, and '--allow <NETWORK>' names nobody"),
        (["--listen", "192.0.2.7", "--allow", "10.0.0.1/8"], "invalid value '10.0.0.1/8' for '--allow <NETWORK>': its address has bits after its prefix"),
        (["--listen", "localhost"], "invalid value 'localhost' for '--listen <ADDRESS>'"),
    ):
        Lab.count += 1
        ran = subprocess.run([built(tree, "nfsd"), *words], capture_output=True, text=True, timeout=PATIENCE, check=False)
        see(f"nfsd {' '.join(words)}", (ran.stdout, said in ran.stderr, ran.returncode), ("", True, 2))


def see_commands(tree, server):
    """nfsc reaches a server by each address."""
    for host in ("127.0.0.2", "::1"):
        Lab.count += 1
        words = ["--host", host, "--port", str(server.port), "--uid", "0", "--gid", "0", "put", "/notes", host]
        ran = subprocess.run([built(tree, "nfsc"), *words], capture_output=True, text=True, timeout=PATIENCE, check=False)
        see(f"nfsc {' '.join(words)}", (ran.stdout, ran.returncode), ("ok\n", 0))


def see_outside(tree, address):
    """Over an address that isn't loopback: who isn't allowed isn't served, nor who has a port that isn't privileged."""
    for words, ports, is_served in (
        (["--allow", ELSEWHERE, "--any-port"], FREE, False),
        (["--allow", f"{address}/32"], FREE, False),
        (["--allow", f"{address}/32"], PRIVILEGED, True),
        (["--allow", ELSEWHERE, "--allow", f"{address}/32", "--any-port"], FREE, True),
    ):
        if ports is PRIVILEGED and os.geteuid():
            continue
        server = Listener(tree, [address], "--listen", address, *words)
        see(f"a call to {address} with {' '.join(words)} from {ports}", server.answers(address, ports), is_served)
        server.stop()


def listened(tree, _):
    """Servers listen on the addresses that they are given, and serve those who may connect."""
    see_words(tree)
    server = Listener(tree, ["127.0.0.2", "[::1]"], "--listen", "127.0.0.2", "--listen", "::1")
    for host in ("127.0.0.2", "::1"):
        see(f"a call to {host}", server.answers(host), True)
    see_commands(tree, server)
    server.stop()
    address = other_address()
    if address:
        see_outside(tree, address)
