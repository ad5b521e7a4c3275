"""What the tests of live programs share: cases and how many pass, processes and folders that end with their block, and the messages of programs
outside. Nothing here knows what a program is to do."""
import contextlib
import os
import shutil
import socket
import struct
import subprocess
import sys
import tempfile
import time
import traceback

TOP = os.path.dirname(os.path.dirname(os.path.abspath(__file__)))
LIMIT = 60
counts = {"passed": 0, "failed": 0}


# ---- cases

def check(name, holds, what=""):
    counts["passed" if holds else "failed"] += 1
    if not holds:
        print(f"FAILED: {name}: {what}", flush=True)


def skip(what):
    print(f"skipped: {what}", flush=True)


def built(program):
    """Where a program of this project stands once it is built."""
    return f"{TOP}/crates/{program}/out/{program}"


def measured(program):
    """Where a program that is only measured stands once bench/lay_out has built it."""
    tree = subprocess.run([f"{TOP}/bench/lay_out", "--where"], capture_output=True, text=True, check=True).stdout.strip()
    return f"{tree}/crates/{program}/out/{program}"


def run_all(cases):
    """Runs each case, or those alone that the words name, counts one that raises as failed, and ends this process."""
    for case in cases:
        if sys.argv[1:] and case.__name__ not in sys.argv[1:]:
            continue
        try:
            case()
        except Exception:
            check(case.__name__, False, traceback.format_exc())
    print(f"{counts['passed']} passed, {counts['failed']} failed")
    raise SystemExit(counts["failed"] > 0)


# ---- processes and folders

def free_ports():
    """Two ports of this machine that nobody listens on."""
    with socket.create_server(("127.0.0.1", 0)) as one, socket.create_server(("127.0.0.1", 0)) as other:
        return one.getsockname()[1], other.getsockname()[1]


def free_port():
    return free_ports()[0]


def end(program):
    """Ends a process, where it runs still, and closes what was piped from it."""
    if program.poll() is None:
        program.kill()
    program.wait()
    for pipe in (program.stdout, program.stderr):
        if pipe:
            pipe.close()


@contextlib.contextmanager
def started(words, **how):
    """A process that reads nothing, and that doesn't outlive the block."""
    program = subprocess.Popen(words, **{"stdin": subprocess.DEVNULL, "text": True, **how})
    try:
        yield program
    finally:
        end(program)


class Served:
    """A program that listens on two ports, for clients and for programs outside, in a folder of its own with this configuration: `program` is its
    process. Both are gone behind the block, however it ends."""

    def __init__(self, conf=None):
        self.folder = tempfile.mkdtemp()
        if conf is not None:
            with open(f"{self.folder}/dlt.conf", "w") as file:
                file.write(conf)
        self.port, self.users = free_ports()

    def __enter__(self):
        return self

    def __exit__(self, *_cause):
        end(self.program)
        shutil.rmtree(self.folder)

    def dial(self, port):
        """A connection to one of its ports, once it listens."""
        until = time.monotonic() + LIMIT
        while True:
            try:
                return socket.create_connection(("127.0.0.1", port), timeout=LIMIT)
            except ConnectionRefusedError:
                if time.monotonic() > until or self.program.poll() is not None:
                    raise
                time.sleep(0.01)

    def client(self):
        return self.dial(self.port)

    def outside(self, sends=b""):
        link = self.dial(self.users)
        link.sendall(sends)
        return link

    def trace(self):
        """The bytes of its trace files, the oldest first."""
        return trace_of(f"{self.folder}/trace")


def trace_of(folder):
    """The bytes of each trace file of a folder, the oldest first."""
    files = []
    for name in sorted(os.listdir(folder)) if os.path.isdir(folder) else []:
        with open(f"{folder}/{name}", "rb") as file:
            files.append(file.read())
    return files


# ---- the messages of programs: DUH, version 1, the kind, and its fields, numbers lowest byte first

def user(kind, fields=b""):
    return b"DUH\x01" + struct.pack("<I", kind) + fields


def registers(apid, pid=1, text=b""):
    return user(2, apid + struct.pack("<iI", pid, len(text)) + text)


def registers_context(apid, ctid, place=0, level=4, pid=1):
    return user(4, apid + ctid + struct.pack("<ibbiI", place, level, -1, pid, 0))


def logs(number, size=4):
    """A message of an own standard header alone, whose payload is its number and so many bytes in all."""
    payload = struct.pack(">I", number).ljust(size, b"x")
    return b"\x20\x00" + struct.pack(">H", 4 + len(payload)) + payload


def says(text, apid, ctid):
    """A message of standard and extended header with a text, at info."""
    payload = b"\x00\x02\x00\x00" + struct.pack("<H", len(text) + 1) + text + b"\0"
    extended = b"\x41\x01" + apid + ctid
    return b"\x21\x00" + struct.pack(">H", 4 + len(extended) + len(payload)) + extended + payload


def logged(frame):
    return user(1, frame)


def level(value, place=0):
    """What a program is told of a level: the level, trace status -1, the context's place."""
    return user(6, struct.pack("<bbi", value, -1, place))


# ---- what is read

def read_all(link):
    link.settimeout(LIMIT)
    taken = b""
    while piece := link.recv(65536):
        taken += piece
    return taken


def read_some(link, size):
    link.settimeout(LIMIT)
    taken = bytearray()
    while len(taken) < size and (piece := link.recv(size - len(taken))):
        taken += piece
    return bytes(taken)


def frames_in(stream):
    """The frames of a stream of messages, and what is left where the last one isn't whole."""
    frames, at = [], 0
    while len(stream) - at >= 4:
        length = int.from_bytes(stream[at + 2:at + 4], "big")
        if not 4 <= length <= len(stream) - at:
            break
        frames.append(stream[at:at + length])
        at += length
    return frames, stream[at:]


def stored_frames(stored):
    """The frames of a trace file, each behind a storage header of 16 bytes; and what is left where the last one isn't whole."""
    frames, at = [], 0
    while len(stored) - at >= 20 and stored.startswith(b"DLT\x01", at):
        length = int.from_bytes(stored[at + 18:at + 20], "big")
        if len(stored) - at < 16 + length:
            break
        frames.append(stored[at + 16:at + 16 + length])
        at += 16 + length
    return frames, stored[at:]
