"""What bench/roundtrip and bench/threads share: the program, what it is compared with, and how both are run."""

import contextlib
import glob
import json
import os
import random
import statistics
import subprocess
import sys
import time

TOP = os.path.dirname(os.path.dirname(os.path.dirname(os.path.abspath(__file__))))
GIVEN = os.environ.get("XATMI")
PROGRAM = os.path.abspath(GIVEN) if GIVEN else f"{TOP}/.built/xatmi"

TEXT = "x" * 100
# INVOKE: a header, the service, the routine, the mode and the data. RETURN: a header, the return value, the code and the
# data. NEXT is a header.
HEADER, WORD, DATA = 12, 1 + len("ECHO"), 1 + 4 + len(TEXT)
THERE = HEADER + 2 * WORD + 1 + DATA
BACK = HEADER + 1 + 4 + DATA + HEADER


def build():
    """Proves and builds the program, where the environment has no other in XATMI."""
    if not GIVEN:
        subprocess.run([f"{TOP}/xatmi", "build"], check=True)


def build_pairs(room):
    """The program in C."""
    subprocess.run(["gcc", "-O2", "-o", f"{room}/pingpong", f"{TOP}/bench/pingpong.c"], check=True)
    return f"{room}/pingpong"


def build_by_hand(room, name):
    """A program by hand in Rust."""
    rustc = ["rustc", "--edition", "2024", "-O", "-C", "codegen-units=1"]
    subprocess.run([*rustc, "-o", f"{room}/{name}", f"{TOP}/bench/{name}.rs"], check=True)
    return f"{room}/{name}"


def pair(bare, calls, kept=0):
    """The command of a pair of C processes that go to and fro so often, and keep so many octets each time."""
    return [bare, str(calls), str(THERE), str(BACK), str(kept)]


def written(path, text):
    with open(path, "w") as file:
        file.write(text)
    return path


def entry(table, **keys):
    return f"[[{table}]]\n" + "".join(f"{key} = {json.dumps(value)}\n" for key, value in keys.items())


def configuration(queues, services):
    """So many queues with a server each, and services of the routine ECHO, for each of which the places of its queues."""
    names = [f"Q{n}" for n in range(queues)]
    return "".join(
        [entry("queue", name=name) for name in names]
        + [entry("server", name=f"S{name}", queue=name) for name in names]
        + [entry("service", name=name, routine="ECHO", queues=[names[n] for n in on]) for name, on in services.items()]
    )


def watch():
    """What a configuration has further for a service PEAK, whose server tells the peak memory of the monitor."""
    return "".join(
        [
            entry("queue", name="WATCHED"),
            entry("server", name="WATCH", queue="WATCHED", program=f"{TOP}/bench/watch"),
            entry("service", name="PEAK", queues=["WATCHED"]),
        ]
    )


def child_of(process):
    """The process that this one started, on whichever of its threads, or nothing where it has ended before."""
    while process.poll() is None:
        for path in glob.glob(f"/proc/{process.pid}/task/*/children"):
            with contextlib.suppress(OSError), open(path) as file:
                if children := file.read().split():
                    return int(children[0])


@contextlib.contextmanager
def placed(processors):
    """What is started within may use these processors alone. Behind it this program goes on elsewhere, where it can."""
    before = os.sched_getaffinity(0)
    os.sched_setaffinity(0, processors)
    try:
        yield
    finally:
        os.sched_setaffinity(0, before - set(processors) or before)
        os.sched_setaffinity(0, before)


def start(words, source, sink, places):
    """Starts the program. `places` are the processors that it may use, and those that its child may; where there are none
    the system places both."""
    if not places:
        return subprocess.Popen(words, stdin=source, stdout=sink)
    with placed(places[0]):
        process = subprocess.Popen(words, stdin=source, stdout=sink)
    child = child_of(process)
    if child is not None:
        with contextlib.suppress(ProcessLookupError):
            os.sched_setaffinity(child, places[1])
    return process


def seconds(commands, given, taken, places=None):
    """How long these run beside each other, from the start of the first to the end of the last."""
    with open(given) as source, open(taken, "w") as sink:
        begin = time.perf_counter()
        running = [start(words, source, sink, places) for words in commands]
        for process in running:
            if process.wait() != 0:
                sys.exit(f"{process.args} ended with status {process.returncode}")
        return time.perf_counter() - begin


def check(name, taken, due):
    """Ends where that isn't the transcript that is due."""
    with open(taken) as file:
        if file.read() != due:
            sys.exit(f"the transcript of {name} is wrong")


def compare(programs, pairs, given, due, rounds, places=None):
    """Runs the programs in turn and prints their times, and for each of these pairs the time of the first over that of the
    second. Answers the medians of those. A program is a list of commands, which run beside each other.

    What ran before makes a difference, so each comes behind a short run, and the order changes.
    """
    taken, short = f"{given}.taken", [pair(programs["C"][0][0], 0)]
    print(f"{'ms:':>8}" + "".join(f"{name:>12}" for name in programs) + "".join(f"{f'{a} to {b}':>19}" for a, b in pairs))
    ratios = {each: [] for each in pairs}
    for n in range(1, rounds + 1):
        took = {}
        for name in random.sample(list(programs), len(programs)):
            seconds(short, os.devnull, os.devnull, places)
            took[name] = seconds(programs[name], given, taken, places)
            if not name.startswith("C"):
                check(name, taken, due)
        for a, b in pairs:
            ratios[a, b].append(took[a] / took[b])
        print(
            f"{n:>8}"
            + "".join(f"{took[name] * 1e3:>12.1f}" for name in programs)
            + "".join(f"{ratios[each][-1]:>19.2f}" for each in pairs),
            flush=True,
        )
    return {each: statistics.median(all_of) for each, all_of in ratios.items()}


def peak(words, given):
    """The peak resident memory of a run of the program, in KiB."""
    words = ["/usr/bin/time", "-f", "%M", *words]
    with open(given) as source:
        ran = subprocess.run(words, stdin=source, stdout=subprocess.DEVNULL, stderr=subprocess.PIPE, check=True)
    return int(ran.stderr.split()[-1])


def peak_so_far(words, given):
    """The peak resident memory of the program when the last of its clients makes its last call, in KiB. The last call of
    each is one of PEAK."""
    with open(given) as source:
        ran = subprocess.run(words, stdin=source, stdout=subprocess.PIPE, check=True)
    last = {line.split()[0]: line.split()[-1] for line in ran.stdout.decode().splitlines()}
    return max(int(bytes.fromhex(told)) for told in last.values())


def kept(title, peak_of, words, full, empty, calls, rounds):
    """Tells and answers what a call keeps, in octets: the peak of a run with so many calls less that of one with none."""
    most, least = (statistics.median(peak_of(words, given) for _ in range(rounds)) for given in (full, empty))
    octets = round((most - least) * 1024 / calls)
    peaks = f"peak memory {most:.0f} KiB with {calls} calls, {least:.0f} KiB with none"
    print(f"{title}: {peaks}: {octets} octets a call", flush=True)
    return octets
