"""Virtual machines: one is started and its state saved before it has seen the drive; each run goes on from there with a drive of its own.

There is no KVM here and a start takes some six seconds under emulation; going on from the saved state takes one.
"""

import json
import os
import socket
import subprocess
import tempfile
import threading
import time
from pathlib import Path

from drive import Drive, Plan

MEMORY = "128"  # MB
START_LIMIT = 60  # seconds
RUN_LIMIT = 60  # half a second is usual
COMMAND_LINE = "console=ttyS0 quiet mitigations=off nokaslr tsc=reliable"
WAITS = "machine waits"
DONE = "machine is done"


class Stuck(Exception):
    """The machine did not come to where it should."""


class Monitor:
    """QEMU's own control line (QMP)."""

    def __init__(self, listener):
        listener.settimeout(START_LIMIT)
        connection, _ = listener.accept()
        self.lines = connection.makefile("rw")
        self.lines.readline()
        self.ask("qmp_capabilities")

    def ask(self, command, **arguments):
        self.lines.write(json.dumps({"execute": command, "arguments": arguments}) + "\n")
        self.lines.flush()
        while True:
            answer = json.loads(self.lines.readline() or '{"error": "QEMU has ended"}')
            if "error" in answer:
                raise Stuck(f"{command}: {answer['error']}")
            if "return" in answer:
                return answer["return"]

    def wait(self, command, status):
        end = time.monotonic() + START_LIMIT
        while self.ask(command).get("status") != status:
            if time.monotonic() > end:
                raise Stuck(f"{command} does not come to {status}")
            time.sleep(0.01)


class Machine:
    """A machine that runs on a drive. It is dead after `with`."""

    def __init__(self, folder, kernel, initramfs, drive, saved=None):
        self.drive = drive
        self.console = Path(folder) / "console"
        self.sockets = tempfile.TemporaryDirectory(prefix="powercut-")  # a socket's path has to be short
        monitor = self.listen("monitor")
        listener = self.listen("drive")
        threading.Thread(target=drive.serve, args=(listener,), daemon=True).start()
        with open(self.console, "wb") as console:
            # Whatever becomes of this process, no machine is left behind.
            self.process = subprocess.Popen(
                ["setpriv", "--pdeathsig", "KILL"] + self.command(kernel, initramfs, saved), stdin=subprocess.PIPE, stdout=console
            )
        try:
            self.monitor = Monitor(monitor)
        except BaseException:
            self.kill()
            raise

    def listen(self, name):
        listener = socket.socket(socket.AF_UNIX)
        listener.bind(f"{self.sockets.name}/{name}")
        listener.listen(1)
        return listener

    def command(self, kernel, initramfs, saved):
        drive = f"file=nbd+unix:///?socket={self.sockets.name}/drive,format=raw,if=none,id=drive,cache=writeback"
        command = ["qemu-system-x86_64", "-accel", "tcg", "-m", MEMORY, "-no-user-config", "-nodefaults", "-display", "none", "-no-reboot"]
        command += ["-kernel", str(kernel), "-initrd", str(initramfs), "-append", COMMAND_LINE]
        command += ["-chardev", "stdio,id=console,signal=off", "-serial", "chardev:console"]
        command += ["-drive", drive, "-device", "virtio-blk-pci,drive=drive"]
        command += ["-qmp", f"unix:{self.sockets.name}/monitor,server=off"]
        return command + (["-incoming", f"exec:cat {saved}"] if saved else [])

    def __enter__(self):
        return self

    def __exit__(self, *_):
        self.kill()

    def kill(self):
        self.drive.cut()
        self.process.kill()
        self.process.wait()
        self.process.stdin.close()
        self.sockets.cleanup()

    def text(self):
        return self.console.read_text(errors="replace").replace("\r", "")

    def wait_for(self, line):
        end = time.monotonic() + START_LIMIT
        while line not in self.text():
            if self.process.poll() is not None or time.monotonic() > end:
                raise Stuck(f"no line {line!r} from the machine; it said:\n{self.text()[-2000:]}")
            time.sleep(0.02)

    def say(self, line):
        self.process.stdin.write(line.encode() + b"\n")
        self.process.stdin.flush()

    def save(self, to):
        self.monitor.ask("migrate", uri=f"exec:cat > {to}")
        self.monitor.wait("query-migrate", "completed")


class Machines:
    """Starts machines from the state of one that was saved before it saw its drive."""

    def __init__(self, folder, kernel, initramfs, image):
        self.arguments = folder, kernel, initramfs
        self.saved = os.path.join(folder, "saved")
        with Machine(*self.arguments, Drive(bytearray(image), frozenset(), Plan("at a moment"), None)) as machine:
            machine.wait_for(WAITS)
            machine.save(self.saved)

    def run(self, todo, drive):
        """Runs until the drive fails by its plan, or the guest is done, which cuts too. Gives what stood on the console."""
        with Machine(*self.arguments, drive, self.saved) as machine:
            machine.monitor.wait("query-status", "running")
            machine.say(todo)
            drive.used.wait(RUN_LIMIT)
            begun = time.monotonic()
            while not drive.down.wait(0.05) and DONE not in machine.text():
                seconds = time.monotonic() - begun
                if drive.plan.seconds and seconds > drive.plan.seconds:
                    break
                if seconds > RUN_LIMIT or machine.process.poll() is not None:
                    raise Stuck(f"{todo}, {drive.plan}: the machine said:\n{machine.text()[-2000:]}")
        return machine.text()
