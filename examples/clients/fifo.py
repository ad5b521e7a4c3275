#!/usr/bin/env python3
"""Programs that are linked with COVESA's libdlt log unchanged: it makes and reads the FIFO that libdlt writes to, and hands each process's messages to the
daemon over a connection of their own; what the daemon sends back goes into the process's own FIFO.

    fifo.py [--port N] [--pipe NAME] [--group NAME]    3491; `dlt` in the folder DLT_PIPE_DIR, or in the system's folder of temporary files where that
                                                       isn't set; who may write to it besides its owner

User messages of libdlt are those of this daemon, byte for byte, for kinds 1 to 8. Its kinds 9 to 13 are passed over, and so are bytes that are no message,
up to the next marker. A description that is too long is cut. It ends at SIGTERM or Ctrl-C, and says then what it counted."""
import argparse
import fcntl
import os
import selectors
import shutil
import signal
import socket
import stat
import struct
import sys
import tempfile
import time

MARKER = b"DUH\x01"
LOG, REGISTER_APP, UNREGISTER_APP, REGISTER_CONTEXT, UNREGISTER_CONTEXT, LEVEL, INJECTION, OVERFLOW = range(1, 9)
# the bytes behind the header: up to the description of kinds 2 and 4, and of those kinds that the daemon doesn't know
FIXED = {REGISTER_APP: 12, UNREGISTER_APP: 8, REGISTER_CONTEXT: 22, UNREGISTER_CONTEXT: 12, OVERFLOW: 8}
UNKNOWN = {9: 6, 10: 1, 11: 0, 12: 1, 13: 0}
LONGEST_LOG, LONGEST_TEXT, MOST_WAITING = 1984, 255, 1 << 20
# Linux's: how much a pipe holds
F_SETPIPE_SZ, F_GETPIPE_SZ = 1031, 1032


class Cutter:
    """Cuts what came through the FIFO into messages: each a kind and its bytes."""

    def __init__(self):
        self.bytes, self.skipped, self.passed = b"", 0, 0

    def size(self, at):
        """How many bytes the message at this place has; 0 while that isn't known, and None where it is none."""
        there = len(self.bytes) - at
        kind, = struct.unpack_from("<I", self.bytes, at + 4)
        if kind in UNKNOWN:
            return 8 + UNKNOWN[kind]
        if kind == LOG:
            if there < 12:
                return 0
            htyp, _, size = struct.unpack_from(">BBH", self.bytes, at + 8)
            return 8 + size if htyp >> 5 == 1 and size >= 4 else None
        if kind not in FIXED:
            return None
        if kind not in (REGISTER_APP, REGISTER_CONTEXT):
            return 8 + FIXED[kind]
        if there < 8 + FIXED[kind]:
            return 0
        size, = struct.unpack_from("<I", self.bytes, at + 4 + FIXED[kind])
        return 8 + FIXED[kind] + size if size <= 65536 else None

    def messages(self, piece):
        """The messages that a piece makes whole. What is no message is passed over, up to the next marker."""
        self.bytes += piece
        at = 0
        while len(self.bytes) - at >= 8:
            if not self.bytes.startswith(MARKER, at):
                found = self.bytes.find(MARKER, at + 1)
                found = found if found >= 0 else len(self.bytes) - 3
                self.skipped, at = self.skipped + found - at, found
                continue
            size = self.size(at)
            if size is None:
                self.skipped, at = self.skipped + 4, at + 4
            elif size == 0 or len(self.bytes) - at < size:
                break
            else:
                whole, at = self.bytes[at:at + size], at + size
                kind, = struct.unpack_from("<I", whole, 4)
                if kind in UNKNOWN or (kind == LOG and size > 8 + LONGEST_LOG):
                    self.passed += 1
                else:
                    yield kind, cut_text(kind, whole)
        self.bytes = self.bytes[at:]


def cut_text(kind, whole):
    """A registration with at most so much of its description as the daemon takes."""
    if kind not in (REGISTER_APP, REGISTER_CONTEXT) or len(whole) <= 8 + FIXED[kind] + LONGEST_TEXT:
        return whole
    text = whole[8 + FIXED[kind]:][:LONGEST_TEXT]
    return whole[:4 + FIXED[kind]] + struct.pack("<I", LONGEST_TEXT) + text


def ids(kind, whole):
    """The process and the application of a message; either may be None."""
    if kind == LOG:
        htyp, at = whole[8], 12
        at += 4 if htyp & 4 else 0
        pid = struct.unpack_from(">I", whole, at)[0] if htyp & 8 and len(whole) >= at + 4 else None
        at += (4 if htyp & 8 else 0) + (4 if htyp & 16 else 0)
        return pid, whole[at + 2:at + 6] if htyp & 1 and len(whole) >= at + 10 else None
    if kind == OVERFLOW:
        return None, whole[12:16]
    at = {REGISTER_APP: 12, UNREGISTER_APP: 12, REGISTER_CONTEXT: 22, UNREGISTER_CONTEXT: 16}[kind]
    return struct.unpack_from("<I", whole, at)[0], whole[8:12]


class Process:
    """One process: its connection to the daemon, what waits for that, and what it has registered, which a daemon that is started again is told first."""

    def __init__(self, pid, bridge):
        self.pid, self.bridge, self.link, self.out, self.heard = pid, bridge, None, b"", b""
        self.registered, self.lost, self.lost_of, self.retry, self.is_gone = {}, 0, b"", 0.0, False

    def connect(self):
        if self.link or self.is_gone or time.monotonic() < self.retry:
            return
        self.retry = time.monotonic() + 1
        try:
            self.link = socket.create_connection(("127.0.0.1", self.bridge.port), 1)
        except OSError:
            return
        self.link.setblocking(False)
        self.heard, self.out = b"", b"".join(self.registered.values())
        self.bridge.selector.register(self.link, selectors.EVENT_READ, self)

    def drop(self):
        """The connection has ended: what was to be sent over it is lost with it."""
        if self.link:
            self.bridge.selector.unregister(self.link)
            self.link.close()
        self.link, self.out = None, b""

    def note(self, kind, whole):
        """Keeps what is registered."""
        key = whole[8:12], whole[12:16] if kind in (REGISTER_CONTEXT, UNREGISTER_CONTEXT) else b""
        if kind in (REGISTER_APP, REGISTER_CONTEXT):
            self.registered[key] = whole
        elif kind == UNREGISTER_CONTEXT:
            self.registered.pop(key, None)
        elif kind == UNREGISTER_APP:
            self.registered = {other: text for other, text in self.registered.items() if other[0] != key[0]}

    def take(self, kind, whole, apid):
        """Takes a message on its way. Where as much waits as may, it is lost, and the daemon is told how many were, in an Overflow message."""
        self.connect()
        if self.link and self.lost and len(self.out) + len(whole) + 16 <= MOST_WAITING:
            self.out += MARKER + struct.pack("<II", OVERFLOW, self.lost) + self.lost_of
            self.lost = 0
        if self.link and len(self.out) + len(whole) <= MOST_WAITING:
            self.out += whole
        elif kind == LOG:
            self.lost, self.lost_of = self.lost + 1, apid or self.lost_of or b"\0\0\0\0"
            self.bridge.lost += 1
        self.note(kind, whole)

    def send(self):
        while self.link and self.out:
            try:
                self.out = self.out[self.link.send(self.out, socket.MSG_NOSIGNAL):]
            except BlockingIOError:
                break
            except OSError:
                self.drop()
                return
        if self.link:
            wanted = selectors.EVENT_READ | (selectors.EVENT_WRITE if self.out else 0)
            self.bridge.selector.modify(self.link, wanted, self)
            if self.is_gone and not self.out:
                self.link.shutdown(socket.SHUT_WR)

    def hear(self):
        """Hands levels and injections to the process, each whole."""
        try:
            came = self.link.recv(65536)
        except BlockingIOError:
            return
        except OSError:
            came = b""
        if not came:
            self.drop()
            return
        self.heard += came
        while len(self.heard) >= 8:
            kind, = struct.unpack_from("<I", self.heard, 4)
            size = 14
            if kind == INJECTION:
                size = 20 + struct.unpack_from("<I", self.heard, 16)[0] if len(self.heard) >= 20 else 20
            if len(self.heard) < size:
                return
            whole, self.heard = self.heard[:size], self.heard[size:]
            self.bridge.hand(self.pid, whole)


class Bridge:
    """The FIFO of all processes, and each process by its number."""

    def __init__(self, port, pipe):
        self.port, self.pipe, self.selector, self.cutter = port, pipe, selectors.DefaultSelector(), Cutter()
        self.processes, self.apps, self.lost, self.messages, self.unhanded = {}, {}, 0, 0, 0

    def open(self, group):
        """Makes the FIFO where it isn't there, for its owner, and for a group to write; and opens it."""
        os.makedirs(os.path.dirname(self.pipe) or ".", exist_ok=True)
        answers = os.path.join(os.path.dirname(self.pipe), "dltpipes")
        if not os.path.exists(answers):
            os.mkdir(answers)
            os.chmod(answers, 0o3733)
        self.made = not os.path.exists(self.pipe)
        # it gets its name once it is read, since a program that finds a FIFO without a reader keeps what it logs to itself
        made = f"{self.pipe}.{os.getpid()}" if self.made else self.pipe
        if self.made:
            os.mkfifo(made)
            os.chmod(made, 0o620)
            if group:
                shutil.chown(made, group=group)
        if not stat.S_ISFIFO(os.stat(made).st_mode):
            sys.exit(f"fifo.py: {self.pipe}: no FIFO")
        # for writing, too, so that it has no end while no process has it open
        self.fifo = os.open(made, os.O_RDWR | os.O_NONBLOCK)
        # a burst that finds no room here is lost where its process ends meanwhile
        try:
            fcntl.fcntl(self.fifo, F_SETPIPE_SZ, 1 << 20)
        except OSError:
            pass
        self.selector.register(self.fifo, selectors.EVENT_READ, None)
        if self.made:
            os.rename(made, self.pipe)

    def hand(self, pid, whole):
        """Writes a message of the daemon into the FIFO of a process; one that isn't read is counted."""
        try:
            fifo = os.open(os.path.join(os.path.dirname(self.pipe), "dltpipes", f"dlt{pid}"), os.O_WRONLY | os.O_NONBLOCK)
            try:
                os.write(fifo, whole)
            finally:
                os.close(fifo)
        except OSError:
            self.unhanded += 1

    def take(self, piece):
        """Takes the next piece of the FIFO, and sends what its messages make of it."""
        for kind, whole in self.cutter.messages(piece):
            pid, apid = ids(kind, whole)
            if kind == REGISTER_APP:
                self.apps[apid] = pid
            pid = self.apps.get(apid) if pid is None else pid
            if pid is None:
                self.cutter.passed += 1
                continue
            self.messages += 1
            if pid not in self.processes:
                self.processes[pid] = Process(pid, self)
            self.processes[pid].take(kind, whole, apid)
        for process in self.processes.values():
            if process.out:
                process.send()

    def drain(self):
        """Takes all that was in the FIFO when it was called; others may write meanwhile, so no more than it holds."""
        left = fcntl.fcntl(self.fifo, F_GETPIPE_SZ)
        while left > 0:
            try:
                piece = os.read(self.fifo, left)
            except BlockingIOError:
                return
            left -= len(piece)
            self.take(piece)

    def look(self):
        """Dials again, and lets go of processes that have ended, once all that they wrote is sent."""
        ended = [pid for pid in self.processes if not os.path.exists(f"/proc/{pid}")]
        if ended:
            self.drain()
        for pid, process in list(self.processes.items()):
            process.connect()
            process.send()
            if pid in ended:
                if process.is_gone and not process.link:
                    del self.processes[pid]
                elif not process.is_gone:
                    process.is_gone = True
                    process.send()

    def run(self):
        looked = 0.0
        while True:
            for key, events in self.selector.select(0.2):
                if key.data is None:
                    self.drain()
                else:
                    if events & selectors.EVENT_READ and key.data.link:
                        key.data.hear()
                    if events & selectors.EVENT_WRITE:
                        key.data.send()
            if time.monotonic() - looked > 0.5:
                looked = time.monotonic()
                self.look()


def main():
    words = argparse.ArgumentParser(description="Programs with COVESA's libdlt log to this daemon.")
    words.add_argument("--port", type=int, default=3491)
    words.add_argument("--pipe", default=os.path.join(os.environ.get("DLT_PIPE_DIR", tempfile.gettempdir()), "dlt"))
    words.add_argument("--group")
    asked = words.parse_args()
    bridge = Bridge(asked.port, asked.pipe)
    bridge.open(asked.group)
    signal.signal(signal.SIGTERM, lambda *_: sys.exit(0))
    try:
        bridge.run()
    except KeyboardInterrupt:
        pass
    finally:
        if bridge.made:
            os.remove(bridge.pipe)
        cut = bridge.cutter
        print(f"messages {bridge.messages} lost {bridge.lost} passed over {cut.passed} bytes skipped {cut.skipped} not handed back {bridge.unhanded}", file=sys.stderr)


main()
