"""Connections between daemons that pass a few frames, and then end."""
import selectors
import threading

from process_rows.frames import Peer


class Proxy:
    """Listens in place of a daemon, and speaks on to it once it may. Behind some frames it does something, and ends
    both connections. It may tell the daemon that the other one has version 1 alone."""

    def __init__(self, room, path, daemon_at, frames, then, is_whole):
        self.listener = room.listen(path)
        self.daemon_at, self.frames, self.then, self.is_whole = daemon_at, frames, then, is_whole
        self.may_begin = threading.Event()
        self.passed = []
        self.wrong = None
        self.thread = threading.Thread(target=self.run, daemon=True)
        self.thread.start()

    def run(self):
        try:
            new = Peer(self.listener.accept()[0])
            try:
                self.speak_on(new)
            finally:
                # The old daemon may be gone by now, and the new one waits for it no longer than this connection stands.
                new.close()
        except Exception as wrong:
            self.wrong = wrong

    def speak_on(self, new):
        """Passes frames between a new daemon and the old one, once that may begin."""
        self.may_begin.wait()
        old = Peer.at(self.daemon_at)
        self.pass_all(new, old)
        old.close()

    def pass_all(self, new, old):
        """Passes frames in both directions, until there were enough of them, or an end closes."""
        with selectors.DefaultSelector() as ready:
            ready.register(new.end, selectors.EVENT_READ, (new, old))
            ready.register(old.end, selectors.EVENT_READ, (old, new))
            while len(self.passed) < self.frames:
                for key, _ in ready.select():
                    if not self.pass_one(*key.data):
                        return
        self.then()

    def pass_one(self, one, to):
        """Passes a frame, where there may be one more. Returns whether the connections stand."""
        if len(self.passed) == self.frames:
            return True
        got = one.read()
        if got is None:
            return False
        name, body = got
        self.sees(name, body)
        try:
            to.send(name, self.passes(name, body))
        except (BrokenPipeError, ConnectionResetError):
            return False
        self.passed.append(name)
        return True

    def passes(self, name, body):
        """Returns the body with which a frame is passed on."""
        return b"\x01\x00\x01" if name == "Offer" and self.is_whole else body

    def sees(self, name, body):
        """Sees a frame before it is passed on."""
