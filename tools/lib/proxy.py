"""The proxy of tools/watch, which the monitor starts in place of a server: it starts the server, hands on each octet as it is, in both
ways, and notes for the watcher what it sees."""

import contextlib
import ctypes
import hashlib
import json
import os
import signal
import subprocess
import threading
import time

import frames
from turns import Turns

# The names under which the watcher says, in the environment: the servers' programs, the pipe for the notes, and the one that nobody
# has open for writing any more as the watcher has ended.
REAL, NOTES, LIFE = "SUNZHEG_WATCH_REAL", "SUNZHEG_WATCH_NOTES", "SUNZHEG_WATCH_LIFE"
PR_SET_PDEATHSIG = 1


def die_with_parent():
    ctypes.CDLL(None).prctl(PR_SET_PDEATHSIG, signal.SIGKILL, 0, 0, 0)


def opened(path, way):
    """A descriptor of that pipe, which the watcher has open at its other end; where it has ended, this doesn't wait for it."""
    descriptor = os.open(path, way | os.O_NONBLOCK)
    os.set_blocking(descriptor, True)
    return descriptor


class Proxy:
    def __init__(self, name):
        self.name, self.program = name, json.loads(os.environ.pop(REAL))[name]
        notes, life = os.environ.pop(NOTES), os.environ.pop(LIFE)
        try:
            self.life, self.notes = opened(life, os.O_RDONLY), opened(notes, os.O_WRONLY)
        except OSError:  # The watcher is there no more.
            os._exit(1)
        self.monitor = os.getppid()
        self.lock, self.turns = threading.Lock(), Turns(os.fsencode(name))
        threading.Thread(target=self.end_with_the_watcher, daemon=True).start()

    def end_with_the_watcher(self):
        """Where the watcher has ended the monitor is killed too, and then this proxy ends, with its server. Before that the
        monitor must see no end of a server, or it would tell it in a transcript."""
        while os.read(self.life, 1):
            pass
        while os.getppid() == self.monitor:
            time.sleep(0.01)
        os._exit(1)

    def note(self, event, **more):
        """One write of less than a pipe takes at once, so the lines of two proxies are never mixed."""
        line = json.dumps({"time": time.time(), "server": self.name, "proxy": os.getpid(), "is": event} | more)
        # Where the watcher has ended nobody reads it.
        with contextlib.suppress(OSError):
            os.write(self.notes, line.encode()[:4_000] + b"\n")

    def run(self):
        signal.signal(signal.SIGINT, signal.SIG_DFL)
        words = [self.program, "server", self.name]
        try:
            # Where the monitor kills this proxy, the server is killed with it.
            process = subprocess.Popen(
                words, bufsize=0, stdin=subprocess.PIPE, stdout=subprocess.PIPE, preexec_fn=die_with_parent
            )
        except OSError as error:
            self.note("not started", what=f"{self.program}: {error.strerror}")
            return 1
        self.note("started", what=f"{self.program}, process {process.pid}", process=process.pid)
        threading.Thread(target=self.give, args=(process.stdin.fileno(),), daemon=True).start()
        self.pump(process.stdout.fileno(), 1, "from")
        # The monitor may kill this proxy as soon as it sees the end of the output, so the server's end is told first.
        with contextlib.suppress(subprocess.TimeoutExpired):
            process.wait(0.2)
        self.note_end(process.poll())
        os.close(1)
        if process.returncode is None:
            self.note_end(process.wait())
        return max(0, process.returncode)

    def note_end(self, status):
        if status is not None:
            self.note("ended", what=f"status {status}" if status >= 0 else f"signal {name_of(-status)}")

    def pump(self, source, sink, way):
        """Hands on what comes, and notes the frames in it; behind what is no frame it only hands on."""
        pending, judged = b"", True
        while octets := os.read(source, 65_536):
            if judged:
                pending, judged = self.judge(pending + octets, way)
            try:
                while octets:
                    octets = octets[os.write(sink, octets) :]
            except OSError:
                self.note("not taken", way=way, what=f"{len(octets)} octets: the other end is closed")
                break
        if judged and pending:
            self.note("cut", way=way, what=f"the octets end within a frame: {frames.shown(pending)}")

    def give(self, sink):
        self.pump(0, sink, "to")
        os.close(sink)

    def judge(self, pending, way):
        try:
            while found := frames.first_frame(pending):
                kind, tag, body, length = found
                self.note_frame(way, kind, tag, frames.fields(kind, body))
                pending = pending[length:]
        except frames.NoFrame as error:
            self.note("no frame", way=way, what=f"{error}; what stands there: {frames.shown(pending, 40)}")
            return b"", False
        if pending:
            self.note("part", way=way, what=f"{len(pending)} octets of a frame: {frames.shown(pending)}")
        return pending, True

    def note_frame(self, way, kind, tag, found):
        more = {"frame": frames.NAMES[kind], "tag": tag, "what": frames.told(kind, tag, found)}
        with self.lock:
            wrong = self.turns.wrote(kind, tag, found) if way == "from" else self.turns.got(kind, tag)
        if wrong:
            more["wrong"] = wrong
        if "service" in found:
            more["service"] = found["service"].decode("latin-1")
        if kind in (frames.RETURN, frames.REPLY):
            more["outcome"] = found.get("error", found.get("outcome", found.get("does")))
        if kind == frames.OP:
            more |= {"does": found["does"]} | {each: found[each] for each in ("absolute", "number") if each in found}
            if "routine" in found:
                more["routine"] = found["routine"].decode("latin-1")
        if "data" in found:
            more["data"] = mark(found["subtype"] and found["subtype"].decode(), found["data"])
        self.note("frame", way=way, **more)


def name_of(number):
    try:
        return signal.Signals(number).name
    except ValueError:  # One of the real-time signals, which have no names.
        return str(number)


def mark(subtype, octets):
    """What tells data from other data: none for no data, else its subtype, how many octets it has, and their digest."""
    return None if octets is None else [subtype, len(octets), hashlib.sha256(octets).hexdigest()]
