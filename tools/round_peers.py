"""Peers that are no members, for rounds on this machine: they speak frames over TCP, and keep to no rule."""

import random
import socket
import struct
import threading
import time

HOST = "127.0.0.1"
FRAMES = 16384


def frame(post):
    return struct.pack(">I", len(post)) + post


def read_frame(stream):
    """The next frame, or None at the end."""
    head = stream.read(4)
    if len(head) < 4:
        return None
    body = stream.read(struct.unpack(">I", head)[0])
    return head + body


def connect(address):
    for _ in range(100):
        try:
            return socket.create_connection(address, timeout=10)
        except OSError:
            time.sleep(0.1)
    raise SystemExit("nobody listens at %s:%d" % address)


def content(group, version=1, round=1, stage=0, sender=3, kind=0, length=9196):
    head = bytes([version]) + group + struct.pack(">Q", round) + bytes([stage, sender]) + bytes(32) + bytes([kind])
    return head + bytes(length - len(head))


def post(content, signature=bytes(2348)):
    return struct.pack(">I", len(content)) + content + signature


def wrong_frames(group, heard):
    """Frames that no member may take for a post: of each kind one, and what was heard with a bit changed."""
    other = bytes(32)
    yield b""
    for length in (1, 3, 4, 75, 76, 1000):
        yield random.Random(length).randbytes(length)
    yield struct.pack(">I", 75) + bytes(100)
    yield struct.pack(">I", 0xFFFFFFFF) + bytes(100)
    yield post(content(group))[:5000]
    yield post(content(group), b"")
    yield post(content(group), bytes(2347))
    yield post(content(group), struct.pack(">II", 40, 3) + bytes(2340))
    for wrong in (dict(version=2), dict(round=2), dict(round=0), dict(sender=0), dict(sender=4), dict(stage=255),
                  dict(stage=4), dict(sender=1), dict(kind=255), dict(length=76), dict(length=20000)):
        yield post(content(group, **wrong))
    yield post(content(other))
    yield post(content(group))
    yield bytes(1 << 24)
    for real in heard:
        yield real
        for place in (0, 4, 5, 45, 46, 79, 80, len(real) - 1):
            if place < len(real):
                yield real[:place] + bytes([real[place] ^ 1]) + real[place + 1:]


class WrongPeer:
    """Sends each wrong frame to each member, and then on further connections a frame that is too long and one that is cut.
    Where it has an address it hears the members there, and sends what it heard back, with a bit changed too."""

    def __init__(self, group, members, own=None):
        self.group, self.members, self.own, self.heard, self.sent = group, members, own, [], 0
        self.lock = threading.Lock()
        self.stop = threading.Event()
        self.threads = []
        if own is not None:
            self.listener = socket.create_server(group.address(own))
            self.listener.settimeout(0.1)
            self.begin(self.listen)
        for member in members:
            self.begin(self.send, member)

    def begin(self, what, *with_these):
        thread = threading.Thread(target=what, args=with_these, daemon=True)
        thread.start()
        self.threads.append(thread)

    def listen(self):
        while not self.stop.is_set():
            try:
                accepted, _ = self.listener.accept()
            except TimeoutError:
                continue
            self.begin(self.hear, accepted)
        self.listener.close()

    def hear(self, accepted):
        accepted.settimeout(None)
        with accepted, accepted.makefile("rb") as stream:
            while (got := read_frame(stream)) is not None:
                with self.lock:
                    self.heard.append(got[4:])

    def send(self, member):
        with connect(self.group.address(member)) as stream:
            time.sleep(0.5)
            with self.lock:
                heard = list(self.heard)
            for wrong in wrong_frames(self.group.id, heard):
                self.put(stream, frame(wrong))
        for last in (struct.pack(">I", (1 << 24) + 1), struct.pack(">I", 1000) + bytes(10), b"\0"):
            with connect(self.group.address(member)) as stream:
                self.put(stream, last)

    def put(self, stream, data):
        """A member that is through with its round or with this peer hangs up, which is no fault of it."""
        try:
            stream.sendall(data)
            with self.lock:
                self.sent += 1
        except OSError:
            pass

    def leave(self):
        self.stop.set()


class Relay:
    """Stands between a member and another. Waits for `first`, hands on the first `most` frames of the member, and calls `then`."""

    def __init__(self, at, to, most, then=lambda: None, first=lambda: None):
        self.listener, self.to, self.most, self.then, self.first = socket.create_server(at), to, most, then, first
        threading.Thread(target=self.run, daemon=True).start()

    def run(self):
        accepted, _ = self.listener.accept()
        with self.listener, accepted, accepted.makefile("rb") as source, connect(self.to) as onward:
            self.first()
            for _ in range(self.most):
                got = read_frame(source)
                if got is None:
                    break
                onward.sendall(got)
            self.then()


class Flood:
    """Sends empty frames to a member on as many connections, on each as many as the member takes, and one more. Each
    connection stays for `stays` seconds behind its last frame."""

    def __init__(self, to, connections, stays=0):
        self.to, self.stays, self.sent, self.lock = to, stays, 0, threading.Lock()
        self.streams = [connect(to) for _ in range(connections)]
        self.threads = []

    def begin(self):
        for stream in self.streams:
            thread = threading.Thread(target=self.send, args=(stream,), daemon=True)
            thread.start()
            self.threads.append(thread)

    def send(self, stream):
        """A member that takes no more hangs up."""
        with stream:
            for _ in range(FRAMES + 1):
                try:
                    stream.sendall(frame(b""))
                except OSError:
                    return
                with self.lock:
                    self.sent += 1
            time.sleep(self.stays)

    def end(self):
        for thread in self.threads:
            thread.join()
