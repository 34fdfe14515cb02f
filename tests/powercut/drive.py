"""A drive with a volatile write cache, as an NBD server in this process.

What was written since the last flush is held by sectors, each with all its versions. When the current fails, each such sector is left as it was or
as one of its versions. The file system's own blocks alone are left whole, old or new: with their sectors at will the kernel once called a transaction
of ext4's journal corrupt, and it is not ext4 that is tested. The drive chooses the moment itself, by its plan: at a write, at a flush, or when it is
told to.
"""

import socket
import struct
import threading
from dataclasses import dataclass

SECTOR = 512
BLOCK = 4096
EIO = 5
EINVAL = 22


@dataclass(frozen=True)
class Plan:
    """When the drive fails. Counted are all flushes, and writes that touch blocks of files, not those of the file system's own blocks alone. If one
    is answered by an error, counting for the cut begins there."""

    cut: str  # "before write", "after write", "at flush", "at a moment"
    count: int = 0  # at which write or flush
    seconds: float = 0  # after which time, for "at a moment"; counted from the drive's first command
    fail_write: int = 0  # this write is answered by an error and not stored; 0: none
    fail_flush: int = 0  # this flush is answered by an error and not carried out; of those alone that have nothing but files' writes before them


class Drive:
    def __init__(self, image, own_blocks, plan, rng):
        """image: a bytearray, changed in place. own_blocks: the file system's own, which hold no file's bytes."""
        self.image = image
        self.own_blocks = own_blocks
        self.plan = plan
        self.rng = rng
        self.unflushed = {}  # sector -> its versions, each with the number of the write, the newest last
        self.all_writes = self.writes = self.flushes = 0
        self.file_flushes = 0  # with nothing but files' writes before them
        self.own_written = False  # since the last flush a block of the file system's own was
        self.failed = False  # a command was answered by an error
        self.reached = False  # the plan's place was
        self.used = threading.Event()  # the first command came
        self.down = threading.Event()  # the current has failed
        self.lock = threading.Lock()  # commands are carried out whole, or not at all once it is down

    # ---- the current fails

    def cut(self):
        with self.lock:
            self.down.set()

    def settle(self):
        """Leaves on the image what is there once the machine is dead. Answers how many sectors had not been flushed."""
        share = self.rng.choice([0.0, 0.2, 0.5, 0.5, 0.8, 1.0])
        for sectors in self.units():
            if self.rng.random() < share:
                writes = sorted({write for sector in sectors for write, _ in self.unflushed[sector]})
                self.put_versions(sectors, self.rng.choice(writes))
        count = len(self.unflushed)
        self.unflushed.clear()
        return count

    def units(self):
        """The sectors not flushed, in lists of such as are stored together or not at all."""
        units = {}
        for sector in sorted(self.unflushed):
            block = sector * SECTOR // BLOCK
            units.setdefault((block, 0 if block in self.own_blocks else sector), []).append(sector)
        return units.values()

    def put_versions(self, sectors, until):
        """These sectors as they were after a write."""
        for sector in sectors:
            for write, data in self.unflushed[sector]:
                if write <= until:
                    self.put(sector, data)

    # ---- commands

    def put(self, sector, data):
        self.image[sector * SECTOR : (sector + 1) * SECTOR] = data

    def read(self, offset, length):
        data = bytearray(self.image[offset : offset + length])
        for sector in range(offset // SECTOR, (offset + length) // SECTOR):
            if sector in self.unflushed:
                at = sector * SECTOR - offset
                data[at : at + SECTOR] = self.unflushed[sector][-1][1]
        return bytes(data)

    def write(self, offset, data):
        """Answers 0 or an error's number."""
        assert offset % SECTOR == 0 and len(data) % SECTOR == 0
        counts = self.touches_files(offset, len(data))
        self.writes += counts
        self.own_written |= not counts
        if counts and self.is_to_fail(self.writes, self.plan.fail_write):
            return EIO
        if counts and self.fails("before write", self.writes):
            return 0
        self.all_writes += 1
        for at in range(0, len(data), SECTOR):
            versions = self.unflushed.setdefault((offset + at) // SECTOR, [])
            versions.append((self.all_writes, data[at : at + SECTOR]))
        if counts:
            self.fails("after write", self.writes)
        return 0

    def flush(self):
        self.flushes += 1
        self.file_flushes += not self.own_written
        if not self.own_written and self.is_to_fail(self.file_flushes, self.plan.fail_flush):
            return EIO
        if self.fails("at flush", self.flushes):
            return 0
        for sector, versions in self.unflushed.items():
            self.put(sector, versions[-1][1])
        self.unflushed.clear()
        self.own_written = False
        return 0

    def touches_files(self, offset, length):
        return any(block not in self.own_blocks for block in range(offset // BLOCK, (offset + length - 1) // BLOCK + 1))

    def fails(self, kind, count):
        """Whether the plan has the current fail here; then it has failed."""
        waits = (self.plan.fail_write or self.plan.fail_flush) and not self.failed
        if self.plan.cut == kind and self.plan.count == count and not waits:
            self.reached = True
            self.down.set()
        return self.reached

    def is_to_fail(self, count, planned):
        """Whether this command is the one that is answered by an error."""
        if self.failed or count != planned:
            return False
        self.failed, self.writes, self.flushes = True, 0, 0
        return True

    # ---- the NBD protocol

    def serve(self, listener):
        """Serves one client until it goes or the current fails; after that nothing is answered."""
        connection, _ = listener.accept()
        self.connection = connection  # kept open: a drive without current says nothing, not even that it is gone
        try:
            self.negotiate(connection)
            while self.command(connection):
                pass
        except (EOFError, ConnectionError):
            pass

    def command(self, connection):
        _, _, kind, handle, offset, length = struct.unpack(">IHHQQI", receive(connection, 28))
        data = receive(connection, length) if kind == 1 else b""
        self.used.set()
        with self.lock:
            if self.down.is_set():
                return False
            error, answer = self.carry_out(kind, offset, length, data)
            if self.down.is_set():
                return False
        connection.sendall(struct.pack(">IIQ", 0x67446698, error, handle) + answer)
        return kind != 2

    def carry_out(self, kind, offset, length, data):
        if kind == 0:
            return 0, self.read(offset, length)
        if kind == 1:
            return self.write(offset, data), b""
        if kind == 3:
            return self.flush(), b""
        return (0 if kind == 2 else EINVAL), b""

    def negotiate(self, connection):
        flags = 1 | 4  # has flags, takes flushes; no writes through the cache
        connection.sendall(b"NBDMAGICIHAVEOPT" + struct.pack(">H", 3))
        receive(connection, 4)
        while True:
            _, option, length = struct.unpack(">8sII", receive(connection, 16))
            receive(connection, length)

            def reply(kind, data=b""):
                connection.sendall(struct.pack(">QIII", 0x3E889045565A9, option, kind, len(data)) + data)

            if option in (6, 7):
                reply(3, struct.pack(">HQH", 0, len(self.image), flags))
                reply(1)
                if option == 7:
                    return
            else:
                reply(0x80000001)  # not known


def receive(connection, length):
    data = bytearray()
    while len(data) < length:
        part = connection.recv(length - len(data))
        if not part:
            raise EOFError
        data += part
    return bytes(data)
