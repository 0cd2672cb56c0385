"""The guest as it runs: qemu under emulation, and the connection to the agent in it."""
import json
import socket
import subprocess
import time

# an x86-64-v2, for which `rt run` builds
CPU = "qemu64,+ssse3,+sse4.1,+sse4.2,+popcnt"
# how long a boot may take, and how long after a command's own time its answer is waited for
BOOT, PATIENCE = 600, 60


class Machine:
    def __init__(self, kernel, initramfs, console):
        with socket.create_server(("127.0.0.1", 0)) as listener:
            listener.settimeout(1)
            with open(console, "wb") as it:
                how = {"stdin": subprocess.DEVNULL, "stdout": it, "stderr": it}
                self.qemu = subprocess.Popen(words(kernel, initramfs, listener.getsockname()[1]), **how)
            try:
                self.agent = self.accepted(listener, time.time() + BOOT)
            except BaseException:
                self.stop()
                raise
        if not self.agent:
            self.stop()
            raise SystemExit(f"mount: the guest doesn't come up; {console} has what it said")
        self.lines = self.agent.makefile("rw", encoding="utf-8")

    def accepted(self, listener, end):
        """The agent's connection, or None where qemu ends or the time does."""
        while self.qemu.poll() is None and time.time() < end:
            try:
                return listener.accept()[0]
            except TimeoutError:
                pass
        return None

    def do(self, who, command, second=False, seconds=60):
        """The status of a command in the guest ("late" where its seconds weren't enough), and what it said."""
        self.agent.settimeout(seconds + PATIENCE)
        asked = {"who": who, "command": command, "second": second, "seconds": seconds, "now": time.time()}
        self.lines.write(json.dumps(asked) + "\n")
        self.lines.flush()
        line = self.lines.readline()
        if not line:
            raise SystemExit("mount: the guest has ended")
        answer = json.loads(line)
        return answer["status"], answer["said"]

    def stop(self):
        self.qemu.kill()
        self.qemu.wait()


def words(kernel, initramfs, port):
    """The guest sees this machine's 127.0.0.1 as 10.0.2.2, and as 10.0.3.2 of its second client."""
    return [
        *("qemu-system-x86_64", "-accel", "tcg,thread=multi", "-cpu", CPU, "-smp", "1", "-m", "1536"),
        *("-nodefaults", "-no-reboot", "-display", "none", "-serial", "stdio"),
        *("-kernel", kernel, "-initrd", initramfs),
        *("-append", f"console=ttyS0 quiet panic=-1 no_timer_check mitigations=off random.trust_cpu=on CONTROL={port}"),
        *("-netdev", "user,id=n0", "-device", "virtio-net-pci,netdev=n0,romfile="),
        *("-netdev", "user,id=n1,net=10.0.3.0/24", "-device", "virtio-net-pci,netdev=n1,romfile="),
        *("-device", "virtio-rng-pci"),
    ]
