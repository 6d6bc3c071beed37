"""Runs the program for ./xatmi, in the folder and with the outputs that it is given; descriptor 3 is its input.

    supervise.py LAUNCHER FOLDER PROGRAM WORD..

Each signal goes on to the program. Where that is ended by one, its servers see the end of their input; one that goes on for a
second is killed, and then this process ends by the same signal. Behind the statuses 2, 3 and 4 a line says more. FOLDER is removed
at the end, if it isn't the empty word.
"""

import contextlib
import ctypes
import os
import resource
import shlex
import shutil
import signal
import sys
import time
from pathlib import Path

sys.path.insert(0, str(Path(__file__).resolve().parent))

from plain import plain

PR_SET_PDEATHSIG, PR_SET_CHILD_SUBREAPER = 1, 36
INPUT = 3
HANDED_ON = {signal.SIGTERM, signal.SIGINT, signal.SIGHUP, signal.SIGQUIT, signal.SIGUSR1, signal.SIGUSR2}
GRACE = 1.0


def prctl(what, value):
    ctypes.CDLL(None).prctl(what, value, 0, 0, 0)


def say(words):
    # Where nobody reads standard error any more, the status says it all the same.
    with contextlib.suppress(OSError):
        print(plain(f"xatmi: {words}"), file=sys.stderr, flush=True)


def started(words):
    """The process of the program."""
    own = os.getpid()
    process = os.fork()
    if process == 0:
        # The program doesn't outlive this process.
        prctl(PR_SET_PDEATHSIG, signal.SIGKILL)
        if os.getppid() != own:
            os._exit(125)
        with contextlib.suppress(OSError):
            os.dup2(INPUT, 0)
            os.close(INPUT)
        signal.signal(signal.SIGPIPE, signal.SIG_DFL)
        signal.pthread_sigmask(signal.SIG_UNBLOCK, HANDED_ON | {signal.SIGCHLD})
        try:
            os.execv(words[0], words)
        except OSError as error:
            say(f"{words[0]}: {error.strerror}")
            os._exit(125)
    return process


def awaited(process):
    """How that process ended, as a status, or as a signal below 0. Signals that come meanwhile go on to it, and what its servers
    leave behind is let go of."""
    while True:
        number = signal.sigwait(HANDED_ON | {signal.SIGCHLD})
        if number != signal.SIGCHLD:
            os.kill(process, number)
            continue
        while True:
            ended = os.waitpid(-1, os.WNOHANG)
            if ended[0] == 0:
                break
            if ended[0] == process:
                return -os.WTERMSIG(ended[1]) if os.WIFSIGNALED(ended[1]) else os.WEXITSTATUS(ended[1])


def servers():
    """The processes that the program has left behind whose last two words are those of a server."""
    found = []
    for each in Path("/proc/self/task").glob("*/children"):
        for process in each.read_text().split():
            with contextlib.suppress(OSError):
                words = Path(f"/proc/{process}/cmdline").read_bytes().split(b"\0")
                if words[-3:-2] == [b"server"]:
                    found.append(int(process))
    return found


def end_servers():
    until = time.monotonic() + GRACE
    while servers() and time.monotonic() < until:
        reap()
        time.sleep(0.02)
    for process in servers():
        with contextlib.suppress(ProcessLookupError):
            os.kill(process, signal.SIGKILL)
    until = time.monotonic() + GRACE
    while servers() and time.monotonic() < until:
        reap()
        time.sleep(0.02)


def reap():
    with contextlib.suppress(ChildProcessError):
        while os.waitpid(-1, os.WNOHANG)[0]:
            pass


def reason(path):
    """Why that file can't be read, or the empty text."""
    try:
        with open(path, "rb") as file:
            file.read(1)
    except OSError as error:
        return error.strerror
    return ""


def reason_of_input():
    try:
        os.read(INPUT, 1)
    except OSError as error:
        return error.strerror
    return ""


def script():
    """The file that standard input is, as a word of a command."""
    found = os.readlink(f"/proc/self/fd/{INPUT}")
    return shlex.quote(os.path.relpath(found)) if os.path.isfile(found) else "SCRIPT"


def say_more(status, launcher, words):
    """What to do where the program refused the configuration or the script."""
    command, word = words[1:3]
    of = shlex.quote(word) if command in ("run", "record") else f"--play {shlex.quote(word)}"
    if status == 2:
        say(f"{launcher} check {of} tells where, and what is taken there")
    elif status == 3:
        say(f"{launcher} check {of} {script()} tells where, and what is taken there")
    elif status == 4:
        of_configuration = reason(word) if command in ("run", "record") else ""
        of_input = reason_of_input()
        if of_configuration:
            say(f"{word}: {of_configuration}")
        elif of_input:
            say(f"standard input: {of_input}")


def end_by(number):
    resource.setrlimit(resource.RLIMIT_CORE, (0, 0))
    signal.signal(number, signal.SIG_DFL) if number not in (signal.SIGKILL, signal.SIGSTOP) else None
    signal.pthread_sigmask(signal.SIG_UNBLOCK, {number})
    os.kill(os.getpid(), number)


def main():
    launcher, folder, *words = sys.argv[1:]
    prctl(PR_SET_CHILD_SUBREAPER, 1)
    signal.pthread_sigmask(signal.SIG_BLOCK, HANDED_ON | {signal.SIGCHLD})
    status = awaited(started(words))
    if status < 0:
        end_servers()
    if folder:
        shutil.rmtree(folder, ignore_errors=True)
    if status < 0:
        end_by(-status)
    say_more(status, launcher, words)
    os._exit(status if status >= 0 else 128 - status)


main()
