"""What daemons and brokers say to each other, as a test speaks it by hand."""
import socket
import struct
import time

from process_rows.checks import WAIT, TooSlow, same

KINDS = {
    1: "Take", 2: "Ask", 3: "Empty", 4: "Post", 5: "Posted", 6: "Ended", 7: "Stale", 8: "NotAsked", 9: "Claim",
    10: "Claimed", 11: "Unanswered", 12: "LastGeneration", 13: "Mount", 14: "Mounted", 15: "Seated", 16: "Attach",
    17: "Attached", 32: "Offer", 33: "Choice", 34: "NoCommon", 35: "Busy", 36: "Ready", 37: "Pong", 38: "Data",
    39: "Failed", 40: "Part",
}
NUMBERS = {name: kind for kind, name in KINDS.items()}


def u64(number):
    return struct.pack(">Q", number)


def u32(number):
    return struct.pack(">I", number)


def frame(name, body=b""):
    """Returns the text of a frame."""
    return struct.pack(">IB", len(body), NUMBERS.get(name, name)) + body


OFFER = frame("Offer", b"\x01\x00\x01")
# What a daemon of the program offers, what one offered before images named the text of a manifest, and the longest text
# of a part.
ALL_VERSIONS = b"\x04\x00\x01\x00\x02\x00\x03\x00\x04"
VERSIONS_WITH_COMMIT = b"\x03\x00\x01\x00\x02\x00\x03"
PART = 4096


def request(opcode, unique, number, body):
    return struct.pack("<IIQQIIII", 40 + len(body), opcode, unique, number, 0, 0, 0, 0) + body


class Peer:
    """One end of a connection, which speaks frames by hand."""

    def __init__(self, end):
        self.end = end
        self.end.settimeout(WAIT)

    @staticmethod
    def at(path):
        """Connects to a path."""
        end = socket.socket(socket.AF_UNIX, socket.SOCK_STREAM)
        end.settimeout(WAIT)
        end.connect(path)
        return Peer(end)

    def send(self, name, body=b""):
        self.end.sendall(frame(name, body))

    def take_bytes(self, count):
        """Returns `count` bytes, or None where the connection is closed."""
        got = b""
        while len(got) < count:
            try:
                more = self.end.recv(count - len(got))
            except ConnectionResetError:
                return None
            if not more:
                return None
            got += more
        return got

    def read(self):
        """Returns a frame's name and body, or None where the connection is closed."""
        head = self.take_bytes(5)
        if head is None:
            return None
        length, kind = struct.unpack(">IB", head)
        body = self.take_bytes(length) if length else b""
        return KINDS[kind], body

    def ask(self, name, body=b""):
        self.send(name, body)
        return self.read()

    def attach(self, daemon=0):
        answer = self.ask("Attach", u64(daemon))
        same(answer and answer[0], "Attached")
        return struct.unpack(">Q", answer[1])[0]

    def take_ask(self, generation):
        """Takes until an ask comes, and returns its bytes."""
        until = time.monotonic() + WAIT
        while time.monotonic() < until:
            answer = self.ask("Take", u64(generation))
            if answer and answer[0] != "Empty":
                return answer
        raise TooSlow("no ask came")

    def is_closed(self):
        """Returns whether the other end closes the connection; what it says before doesn't count."""
        while True:
            try:
                if not self.end.recv(65536):
                    return True
            except ConnectionResetError:
                return True
            except TimeoutError:
                return False

    def close(self):
        self.end.close()


def drip(end, text):
    """Sends a byte of a text each half second, until the other end closes."""
    try:
        for byte in text:
            end.sendall(bytes([byte]))
            time.sleep(0.5)
    except OSError:
        pass
