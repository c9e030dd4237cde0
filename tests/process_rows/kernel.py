"""A broker of the test's own, at which several clients ask at a time."""
import struct
import threading
import time

from process_rows.checks import WAIT, TooSlow, same
from process_rows.frames import Peer, u64


class Kernel:
    """A broker of the test's own, at which four clients ask at a time. Its lock guards what stands below it."""

    def __init__(self, room):
        self.listener = room.listen(room.broker_at)
        self.ends = room.ends
        self.lock = threading.Condition()
        self.daemons = self.generation = self.unique = 0
        self.is_over = False
        self.waiting, self.owed, self.replies = [], set(), {}
        threading.Thread(target=self.accept, daemon=True).start()

    def accept(self):
        while True:
            try:
                end = self.listener.accept()[0]
            except OSError:
                return
            self.ends.append(end)
            threading.Thread(target=self.serve, args=(Peer(end),), daemon=True).start()

    def serve(self, peer):
        """Answers a connection's frames until it closes."""
        try:
            while (said := peer.read()) is not None:
                with self.lock:
                    answer = self.answer(*said)
                    self.lock.notify_all()
                peer.send(*answer)
        except OSError:
            pass

    def answer(self, name, body):
        number = struct.unpack(">Q", body[:8])[0] if body else 0
        if name == "Attach":
            self.daemons += number == 0
            return "Attached", u64(number or self.daemons)
        if self.is_over:
            return ("Ended",)
        if name == "Mount":
            self.generation = 1
            return "Mounted", u64(1)
        if number != self.generation:
            return "Stale", u64(self.generation)
        return getattr(self, name.lower())(body[8:])

    def take(self, _nothing):
        if not self.waiting:
            self.lock.wait_for(lambda: self.waiting or self.is_over, 0.001)
        if not self.waiting:
            return ("Empty",)
        unique, text = self.waiting.pop(0)
        self.owed.add(unique)
        return "Ask", text

    def post(self, reply):
        length, error, unique = struct.unpack("<IiQ", reply[:16])
        if unique not in self.owed:
            return ("NotAsked",)
        self.owed.remove(unique)
        same(length, len(reply))
        self.replies[unique] = self.generation, error, reply[16:]
        return ("Posted",)

    def claim(self, _nothing):
        if self.owed:
            return "Unanswered", u64(len(self.owed))
        self.generation += 1
        return "Claimed", u64(self.generation)

    def ask(self, opcode, number, body):
        """Asks what succeeds, and returns the generation at which the answer was accepted, and its body."""
        generation, error, answer = self.reply_to(opcode, number, body)
        same(error, 0)
        return generation, answer

    def reply_to(self, opcode, number, body):
        """Asks, and returns the generation at which the answer was accepted, its error and its body."""
        with self.lock:
            self.unique += 1
            unique = self.unique
            head = struct.pack("<IIQQIIII", 40 + len(body), opcode, unique, number, 0, 0, 0, 0)
            self.waiting.append((unique, head + body))
            self.lock.notify_all()
            if not self.lock.wait_for(lambda: unique in self.replies, WAIT):
                raise TooSlow(f"ask {unique} was lost")
            return self.replies.pop(unique)


class Client(threading.Thread):
    """A program that looks files up and shows them, one ask at a time, until it is to stop."""

    PATHS = ([b"src"], [b"src", b"a"], [b"src", b"b"], [b"README"])

    def __init__(self, kernel):
        super().__init__(daemon=True)
        self.kernel = kernel
        self.stops = False
        self.numbers, self.generations, self.wrong = {}, set(), None
        self.start()

    def run(self):
        try:
            while not self.stops:
                for path in self.PATHS:
                    self.show(path)
        except Exception as wrong:
            self.wrong = wrong

    def show(self, path):
        """Looks up a path, and shows its file: each answer tells the number that the first one gave."""
        number = 1
        for depth, name in enumerate(path, 1):
            generation, entry = self.kernel.ask(1, number, name + b"\0")
            self.generations.add(generation)
            number = struct.unpack("<Q", entry[:8])[0]
            same(self.numbers.setdefault(b"/".join(path[:depth]), number), number)
        generation, attr = self.kernel.ask(3, number, bytes(16))
        self.generations.add(generation)
        same(struct.unpack("<Q", attr[16:24])[0], number)


def await_answers(clients, generation):
    """Waits until each client got an answer at a generation."""
    until = time.monotonic() + WAIT
    while not all(generation in client.generations for client in clients):
        if time.monotonic() > until:
            raise TooSlow(f"not each client was answered at {generation}: {[it.wrong for it in clients]}")
        time.sleep(0.005)
