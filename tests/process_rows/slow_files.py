"""A file system of one directory, over /dev/fuse by hand: its reads are answered once a row lets them."""
import os
import stat
import struct
import subprocess
import threading

from process_rows.rooms import run_to_end

# Opcodes of linux/fuse.h.
LOOKUP, FORGET, GETATTR, OPEN, READ, RELEASE, FLUSH, INIT, BATCH_FORGET = 1, 2, 3, 14, 15, 18, 25, 26, 42
NO_REPLY = (FORGET, BATCH_FORGET)
ROOT = 1
ENOENT, ENOSYS = 2, 38
# Each read goes to the file system: nothing of a file is kept (FOPEN_DIRECT_IO).
DIRECT = 1
OPTIONS = "fd=0,rootmode=40000,user_id=0,group_id=0,allow_other"
HEADER = struct.Struct("<IIQQIIII")
LONGEST = 1 << 17


class SlowFiles:
    """Files with contents by their names. A read of one that is held is not answered until all are let go."""

    def __init__(self, room, contents):
        self.names = list(contents)
        self.contents = contents
        self.held = set()
        self.waiting = []
        self.lock = threading.Lock()
        self.path = f"{room.path}/slow"
        os.mkdir(self.path)
        self.device = os.open("/dev/fuse", os.O_RDWR)
        words = ["mount", "-i", "-t", "fuse", "-o", OPTIONS, "slow-files", self.path]
        subprocess.run(words, stdin=self.device, check=True)
        threading.Thread(target=self.serve, daemon=True).start()

    def hold(self, *names):
        """Holds each read of these files from now on."""
        with self.lock:
            self.held.update(names)

    def let_go(self):
        """Answers all reads that are held, and holds none from now on."""
        with self.lock:
            self.held.clear()
            waiting, self.waiting = self.waiting, []
        for unique, body in waiting:
            self.reply(unique, body)

    def end(self):
        self.let_go()
        run_to_end(["umount", "-l", self.path], stderr=subprocess.DEVNULL)

    def serve(self):
        """Serves until the mount is gone."""
        while True:
            try:
                message = os.read(self.device, LONGEST + 4096)
            except OSError:
                return
            _, opcode, unique, node, *_ = HEADER.unpack_from(message)
            if opcode not in NO_REPLY:
                self.answer(opcode, unique, node, message[HEADER.size :])

    def answer(self, opcode, unique, node, body):
        if opcode == READ:
            self.answer_read(unique, node, body)
        elif opcode == LOOKUP:
            self.answer_lookup(unique, body.rstrip(b"\0").decode())
        elif opcode == GETATTR:
            self.reply(unique, struct.pack("<QII", 0, 0, 0) + self.attributes(node))
        elif opcode == OPEN:
            self.reply(unique, struct.pack("<QII", 0, DIRECT, 0))
        elif opcode in (RELEASE, FLUSH):
            self.reply(unique, b"")
        elif opcode == INIT:
            self.reply(unique, struct.pack("<IIIIHHIIHH8I", 7, 31, LONGEST, 0, 16, 12, LONGEST, 1, 0, 0, *[0] * 8))
        else:
            self.reply(unique, b"", ENOSYS)

    def answer_lookup(self, unique, name):
        if name not in self.contents:
            self.reply(unique, b"", ENOENT)
            return
        node = self.names.index(name) + 2
        self.reply(unique, struct.pack("<QQQQII", node, 0, 0, 0, 0, 0) + self.attributes(node))

    def answer_read(self, unique, node, body):
        offset, size = struct.unpack_from("<QI", body, 8)
        name = self.names[node - 2]
        answer = unique, self.contents[name][offset : offset + size]
        with self.lock:
            if name in self.held:
                self.waiting.append(answer)
                return
        self.reply(*answer)

    def attributes(self, node):
        """Returns the attributes of the directory or of a file (`struct fuse_attr`)."""
        mode, size = (stat.S_IFDIR | 0o755, 0) if node == ROOT else (stat.S_IFREG | 0o644, len(self.contents[self.names[node - 2]]))
        return struct.pack("<6Q10I", node, size, 0, 0, 0, 0, 0, 0, 0, mode, 1, 0, 0, 0, 4096, 0)

    def reply(self, unique, body, error=0):
        try:
            os.write(self.device, struct.pack("<IiQ", 16 + len(body), -error, unique) + body)
        except OSError:
            pass
