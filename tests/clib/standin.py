"""What tests/clib/run shares with nobody else: a stand-in for the daemon's users' port, libdlt's FIFO, and what messages of programs say."""
import os
import socket
import struct
import threading


class Users(threading.Thread):
    """Takes one program after another, answers each context's registration with a level, and keeps what was sent."""

    def __init__(self, level=4, port=0, reads=True, path=None):
        super().__init__(daemon=True)
        self.level, self.reads, self.bytes, self.links, self.ended = level, reads, [], [], 0
        self.there = threading.Condition()
        self.socket = socket.socket(socket.AF_UNIX) if path else socket.create_server(("127.0.0.1", port))
        if path:
            self.socket.bind(path)
            self.socket.listen()
        self.port = None if path else self.socket.getsockname()[1]
        self.start()

    def run(self):
        while True:
            try:
                link, _ = self.socket.accept()
            except OSError:
                return
            with self.there:
                self.bytes.append(b"")
                self.links.append(link)
                number = len(self.bytes) - 1
            if self.reads:
                threading.Thread(target=self.hear, args=(link, number), daemon=True).start()

    def hear(self, link, number):
        rest = b""
        try:
            while piece := link.recv(65536):
                found, rest = cut(rest + piece)
                for kind, body in found:
                    if kind == 4:
                        link.sendall(level(self.level, struct.unpack_from("<I", body, 8)[0]))
                with self.there:
                    self.bytes[number] += piece
                    self.there.notify_all()
        except OSError:
            pass
        link.close()
        with self.there:
            self.ended += 1
            self.there.notify_all()

    def tell(self, message, number=0):
        self.links[number].sendall(message)

    def waits_for(self, holds, seconds=60):
        """Whether this comes to hold of the bytes of all programs."""
        with self.there:
            return self.there.wait_for(lambda: holds(self.bytes), seconds)

    def all_of(self, programs=1, seconds=60):
        """What each program sent, once so many have ended their links."""
        with self.there:
            assert self.there.wait_for(lambda: self.ended >= programs, seconds), f"{self.ended} programs closed their links"
            return list(self.bytes)

    def close(self):
        self.socket.close()
        for link in self.links:
            link.close()


def level(value, place):
    return b"DUH\x01" + struct.pack("<IBbI", 6, value, 0, place)


def injection(place, service, data):
    return b"DUH\x01" + struct.pack("<IIII", 7, place, service, len(data)) + data


def cut(data):
    """The user messages that the bytes are, with their kinds, and what is left of them."""
    messages, at = [], 0
    while len(data) - at >= 12:
        assert data[at:at + 4] == b"DUH\x01", data[at:at + 16]
        kind = struct.unpack_from("<I", data, at + 4)[0]
        body = data[at + 8:at + 2100]
        need = {1: 4, 2: 12, 3: 8, 4: 22, 5: 12, 8: 8}[kind]
        if len(body) < need:
            break
        if kind == 1:
            need = struct.unpack_from(">H", body, 2)[0]
        elif kind in (2, 4):
            need += struct.unpack_from("<I", body, need - 4)[0]
        if len(body) < need:
            break
        messages.append((kind, body[:need]))
        at += 8 + need
    return messages, data[at:]


def text(field):
    return field.rstrip(b"\0").decode(errors="replace")


def arguments(payload):
    """The texts and numbers of a verbose payload."""
    found, at = [], 0
    while at < len(payload):
        info = struct.unpack_from("<I", payload, at)[0]
        at += 4
        names = 2 if info & 0xf0 and info & 0x800 and not info & 0x10 else 1 if info & 0x800 else 0
        if info & 0x600:
            size = struct.unpack_from("<H", payload, at)[0]
            at += 2
        else:
            size = 1 << ((info & 15) - 1)
        lengths = [struct.unpack_from("<H", payload, at + 2 * each)[0] for each in range(names)]
        at += 2 * names + sum(lengths)
        value = payload[at:at + size]
        at += size
        found.append(text(value) if info & 0x200 else value if info & 0x400 else int.from_bytes(value, "little", signed=bool(info & 0x20)))
    return found


class Message:
    """A log message as this library writes it: ECU, SEID, TMSP, and an extended header."""

    def __init__(self, frame):
        assert frame[0] == 0x3d, frame[:4]
        self.counter, self.session, self.ticks = frame[1], *struct.unpack_from(">II", frame, 8)
        self.info, self.count, self.payload = frame[16], frame[17], frame[26:]
        self.ecu, self.apid, self.ctid = text(frame[4:8]), text(frame[18:22]), text(frame[22:26])

    def arguments(self):
        return arguments(self.payload)


def log_messages(data):
    """The log messages among user messages."""
    messages, rest = cut(data)
    assert not rest, "a message was not sent whole"
    return [Message(body) for kind, body in messages if kind == 1]


class Account:
    """What accounts of a context come to: how many calls were filtered, queued and lost."""

    def __init__(self, messages, ctid, apid=None):
        each = [it.arguments() for it in messages if it.ctid == "DLTC" and (apid is None or it.apid == apid)]
        each = [dict(zip(words[::2], words[1::2])) for words in each if words[1] == ctid]
        self.levels = [it["level"] for it in each]
        self.filtered, self.queued, self.lost = (sum(it[word] for it in each) for word in ("filtered", "queued", "lost"))

    def __repr__(self):
        return f"filtered {self.filtered} queued {self.queued} lost {self.lost} levels {self.levels}"

    def is_of(self, filtered, queued, lost=0):
        return (self.filtered, self.queued, self.lost) == (filtered, queued, lost)


def read_fifo(folder, program):
    """What a program writes into libdlt's FIFO in a folder, until it has ended."""
    os.mkfifo(f"{folder}/dlt")
    data, fifo = b"", os.open(f"{folder}/dlt", os.O_RDWR | os.O_NONBLOCK)
    while True:
        is_over = program() is not None
        try:
            while piece := os.read(fifo, 65536):
                data += piece
        except BlockingIOError:
            if is_over:
                os.close(fifo)
                return data
            threading.Event().wait(0.01)
