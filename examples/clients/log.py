#!/usr/bin/env python3
"""Logs from outside: registers an application with a context, obeys the level that the daemon sends back, and logs. It never waits for the daemon, and goes
on without it: what is logged then waits in a queue of so many bytes, what finds no room there is told in an Overflow message, and it dials again.

    log.py [PORT [COUNT [REST]]]    3491, 10 and 0 where they are not given; it rests so many milliseconds behind each message
"""
import collections
import os
import socket
import struct
import sys
import time

FATAL, ERROR, WARN, INFO, DEBUG, VERBOSE = range(1, 7)
PORT, COUNT, REST = (int(word) for word in (sys.argv[1:] + ["3491", "10", "0"][len(sys.argv) - 1:])[:3])
# how many bytes may wait, how many seconds pass between two dials, and how long it tries at its end to hand on what waits
QUEUE, AGAIN, PATIENCE = 1000000, 1.0, 5.0


def message(kind, fields):
    """A user message: DUH, version 1, its kind, and its fields, numbers lowest byte first."""
    return b"DUH\x01" + struct.pack("<I", kind) + fields


REGISTERS = (message(2, b"OUT1" + struct.pack("<iI", os.getpid(), 7) + b"outside")
             + message(4, b"OUT1TEST" + struct.pack("<ibbiI", 0, -2, -2, os.getpid(), 4) + b"test"))


class Daemon:
    """The way to the daemon: messages wait whole, and the first of them may be sent in part."""

    def __init__(self):
        self.link, self.dialled, self.level, self.heard = None, 0.0, INFO, b""
        self.waiting, self.size, self.sent, self.lost = collections.deque(), 0, 0, 0

    def dial(self):
        """Dials, but not too often. A daemon that was not there before is told the registrations first."""
        if self.link or time.monotonic() < self.dialled:
            return
        self.dialled = time.monotonic() + AGAIN
        try:
            self.link = socket.create_connection(("127.0.0.1", PORT), 1)
        except OSError:
            return
        self.link.setblocking(False)
        self.heard, self.sent = b"", 0
        self.waiting.appendleft(REGISTERS)

    def drop(self):
        """The connection is broken. The message that was under way is sent anew from its start, but not the registrations."""
        self.link.close()
        self.link, self.sent = None, 0
        if self.waiting and self.waiting[0] is REGISTERS:
            self.waiting.popleft()

    def put(self, whole):
        """Queues a message where there is room, behind the number of those that found none."""
        told = message(8, struct.pack("<I", self.lost) + b"OUT1") if self.lost else b""
        if self.size + len(told) + len(whole) > QUEUE:
            self.lost += 1
            return
        for each in filter(None, (told, whole)):
            self.waiting.append(each)
            self.size += len(each)
        self.lost = 0

    def turn(self):
        """Sends what the connection takes now, and hears what has come."""
        self.dial()
        try:
            while self.link and self.waiting:
                # the flag: who writes to a daemon that is gone is told so, and not ended
                self.sent += self.link.send(self.waiting[0][self.sent:], socket.MSG_NOSIGNAL)
                if self.sent == len(self.waiting[0]):
                    first, self.sent = self.waiting.popleft(), 0
                    self.size -= 0 if first is REGISTERS else len(first)
        except BlockingIOError:
            pass
        except OSError:
            self.drop()
        self.obey()

    def obey(self):
        """Takes in the levels that came meanwhile: kind 6, the level, the trace status, and the place of the context."""
        try:
            came = self.link.recv(4096) if self.link else b""
        except BlockingIOError:
            return
        except OSError:
            came = b""
        if self.link and not came:
            self.drop()
        self.heard += came
        while len(self.heard) >= 14:
            self.level, self.heard = struct.unpack_from("<8xbbi", self.heard)[0], self.heard[14:]

    def end(self):
        """Hands on what waits, for a while, and then ends the connection. Who closes while levels wait unread makes the system drop what the daemon has not
        read yet: so all is read first, until the daemon closes."""
        until = time.monotonic() + PATIENCE
        while (self.waiting or not self.link) and time.monotonic() < until:
            self.turn()
            time.sleep(0.005)
        if self.link:
            self.link.settimeout(PATIENCE)
            try:
                self.link.shutdown(socket.SHUT_WR)
                while self.link.recv(4096):
                    pass
            except OSError:
                pass
        if self.waiting or self.lost:
            sys.exit(f"log.py: {len(self.waiting)} messages did not reach the daemon, and {self.lost} found no room")


counter = 0


def log(daemon, severity, text):
    """Logs a text where the level lets it pass: standard and extended header, and one argument."""
    global counter
    if severity > daemon.level:
        return
    argument = struct.pack("<IH", 0x8200, len(text.encode()) + 1) + text.encode() + b"\0"
    ticks = int(time.monotonic() * 10000) % 2**32
    front = b"ECU1" + struct.pack(">II", os.getpid(), ticks) + bytes([severity << 4 | 1, 1]) + b"OUT1TEST"
    daemon.put(message(1, struct.pack(">BBH", 0x3D, counter, 4 + len(front + argument)) + front + argument))
    counter = (counter + 1) % 256


daemon = Daemon()
for number in range(COUNT):
    daemon.turn()
    log(daemon, INFO, f"message {number}")
    log(daemon, DEBUG, f"more on message {number}")
    if REST:
        time.sleep(REST / 1000)
daemon.put(message(3, b"OUT1" + struct.pack("<i", os.getpid())))
daemon.end()
