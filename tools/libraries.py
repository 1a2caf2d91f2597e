"""Proves and builds crates of this repository side by side, by the routines of `rt`, which is a program in Python, and in its gate's order: first those
with the longest chain of others behind them. What earlier checks kept in crates/*/out counts, and so does what other checkouts on the machine kept. It
says what it will take, and how far it is."""

import contextlib
import copy
import functools
import glob
import importlib.machinery
import importlib.util
import json
import os
import re
import shutil
import signal
import sys
import tempfile
import threading
import time

TOP = os.path.dirname(os.path.dirname(os.path.realpath(__file__)))
# What is asked of rt; another kit's may lack one.
ASKED = ("checked", "free", "in_lanes", "must_fail", "need", "processors", "read_edit", "read_files", "rtlib")
# The seconds that each crate took from nothing when it was last proved here.
TOOK = f"{TOP}/tools/out/seconds.json"
PERFORMANCE = f"{TOP}/docs/PERFORMANCE.md"


class Refused(Exception):
    """Why a tool stops, in a line."""


@functools.cache
def load_rt():
    """Returns the module that the program `rt` is."""
    found = shutil.which("rt")
    if not found:
        raise Refused("there is no rt in the path")
    sys.dont_write_bytecode = True
    loader = importlib.machinery.SourceFileLoader("rt", os.path.realpath(found))
    rt = importlib.util.module_from_spec(importlib.util.spec_from_loader("rt", loader))
    loader.exec_module(rt)
    lacking = [it for it in ASKED if not hasattr(rt, it)]
    if lacking:
        raise Refused(f"the rt of this kit has no {', '.join(lacking)}")
    # Some kits have a word for what becomes of an edit that is refused; in the others `must_fail` answers yes.
    rt.REFUSED = getattr(rt, "REFUSED", True)
    # Its first call sets a signal's handler, which only the main thread may.
    rt.rtlib.guarded()
    return rt


def crates(names):
    """Returns the crates of these names, or all if there is none."""
    rt = load_rt()
    found = {it.name: it for it in rt.rtlib.crates_below(TOP)}
    for it in found.values():
        rt.read_files(it)
    for it in names:
        if it not in found:
            raise Refused(f"crates.txt names no crate {it}")
    return [found[it] for it in names or sorted(found)]


def jobs():
    """Returns how many checks are to run at once by the environment's JOBS, or None."""
    said = os.environ.get("JOBS", "")
    if said and not (said.isdigit() and int(said)):
        raise Refused("JOBS is no number from 1 on")
    return int(said) if said else None


def below(crates):
    """Returns the libraries that the crates stand on, each after those that it stands on itself."""
    found = []
    for crate in crates:
        found += [it for it in crate.below() if it not in found]
    return found


def are_of_a_gate(libraries):
    """Returns whether a gate left all of these, which writes no stamp beside a library, and none is older than a file that it is made from."""
    for crate in libraries:
        made = f"{crate.folder}/out/rlib"
        if os.path.exists(f"{made}/stamp") or not os.path.isdir(crate.rlib):
            return False
        parts = [f"{it.folder}/{part}" for it in [*crate.below(), crate] for part in load_rt().rtlib.PARTS]
        texts = [f"{at}/{name}" for part in parts for at, _, names in os.walk(part) for name in names]
        if max(map(os.path.getmtime, texts)) > os.path.getmtime(crate.rlib):
            return False
    return True


def stop_on_layout(crates):
    """Refuses crates with a file that is not laid out as `rt fmt` does, which the gate refuses, too."""
    with open(os.devnull, "w", encoding="utf-8") as nowhere:
        found = [it.name for it in crates if load_rt().rtlib.fmt(it.folder, "--check", nowhere)]
    if found:
        raise Refused(f"`rt fmt` would lay out anew, and the gate refuses: {', '.join(found)}")


def made_of(crate):
    """Returns the file that a program or a static library is made as."""
    return f"{crate.folder}/out/{crate.name if crate.is_program else f'lib{crate.name}.a'}"


def is_made(crate):
    """Returns whether a crate's library, or its program, is built of its present text."""
    if crate.makes_rlib():
        return crate.is_built()
    rtlib, file = load_rt().rtlib, made_of(crate)
    return rtlib.text_of(f"{file}.stamp") == crate.stamp() + rtlib.sum_of(file)


def unbuilt(crates):
    """Returns those that are not built of their present text. The sum of a crate's text has those of all below it, which rt makes anew each time that it
    comes to them, for minutes in all; here each is made once."""
    crate = load_rt().rtlib.Crate
    stamp, crate.stamp = crate.stamp, functools.cache(crate.stamp)
    try:
        return [it for it in crates if not is_made(it)]
    finally:
        crate.stamp = stamp


def make(crate, jobs):
    """Proves a crate and builds its library or its program, and returns whether it could."""
    if is_made(crate):
        # (another run was there while this one waited for it)
        return True
    flags = ["--jobs", str(jobs)]
    if crate.makes_rlib():
        return crate.build_rlib(flags, anew=False) == 0
    if crate.is_program:
        # A run of the empty script ends with status 0, and rt leaves the program.
        crate.held = []
        return crate.run(flags, ["sim", "/dev/null"]) == 0
    rtlib, file, stamp = load_rt().rtlib, made_of(crate), crate.stamp()
    with contextlib.suppress(FileNotFoundError):
        os.remove(f"{file}.stamp")
    is_proved = crate.build_static(flags) == 0
    if is_proved and stamp == crate.stamp():
        with open(f"{file}.stamp", "w", encoding="utf-8") as it:
            it.write(stamp + rtlib.sum_of(file))
    return is_proved


def mark(crate):
    """Tells ./hostd that the program is built of the text as it is: it looks for files that are younger than the mark, and the program has to be."""
    begun = f"{crate.folder}/out/begun"
    with open(f"{begun}.new", "w", encoding="utf-8"):
        pass
    if is_made(crate):
        after = os.stat(f"{begun}.new").st_mtime_ns + 1
        os.utime(made_of(crate), ns=(after, after))
        os.replace(f"{begun}.new", begun)
    else:
        os.remove(f"{begun}.new")


def took():
    """Returns the seconds that the crates took here from nothing, by name."""
    try:
        with open(TOOK, encoding="utf-8") as it:
            found = json.load(it)
        return {name: float(seconds) for name, seconds in found.items()}
    except (OSError, ValueError, AttributeError, TypeError):
        return {}


def note(name, seconds):
    """Keeps what a crate took from nothing, for the next run."""
    os.makedirs(os.path.dirname(TOOK), exist_ok=True)
    with tempfile.NamedTemporaryFile("w", dir=os.path.dirname(TOOK), delete=False, encoding="utf-8") as it:
        json.dump({**took(), name: round(seconds, 1)}, it, indent=0)
    os.replace(it.name, TOOK)


def told():
    """Returns the seconds that docs/PERFORMANCE.md counts of each crate that it names, or None if it has no such list."""
    with contextlib.suppress(OSError):
        with open(PERFORMANCE, encoding="utf-8") as it:
            listed = it.read().partition("Seconds of each crate's proof")[2].partition("\n\n- ")[2].partition("tests of")[0]
        return {name: float(seconds) for name, seconds in re.findall(r"\b([a-z]\w*)\s+(\d+)\b", listed)} or None
    return None


def expected(left, lanes):
    """Returns in words how long it takes to prove these from nothing, and who counted that."""
    here, page = took(), told()
    if page is None and any(it.name not in here for it in left):
        return "nobody has counted how long that takes from nothing"
    # The page names none of the quickest.
    seconds = {it.name: here.get(it.name) or page.get(it.name, 30) for it in left}
    chain = {}
    for it in left:
        chain[it.name] = seconds[it.name] + max((chain.get(dep.name, 0) for dep in it.below()), default=0)
    # No run is shorter than its longest chain, or than all of it on all the processors.
    minutes = max(sum(seconds.values()) / lanes, *chain.values()) / 60
    whose = [whose for whose, counts in (("they took here", here), ("docs/PERFORMANCE.md counts", page or {})) if any(it.name in counts for it in left)]
    if all(it.name in here for it in left):
        whose = whose[:1]
    return f"from nothing about {minutes:.0f} min, as {' and '.join(whose) or 'small crates take'}" if minutes >= 1 else "less than a minute"


def span(seconds):
    return f"{seconds:.0f} s" if seconds < 60 else f"{seconds / 60:.0f} min"


class Progress:
    """Tells how far a run is: a line for each crate that is done, and on a terminal one that stands below these and is written anew each second."""

    def __init__(self, name, number):
        self.name, self.number, self.done, self.begun, self.running, self.lock = name, number, 0, time.monotonic(), {}, threading.RLock()
        self.is_terminal, self.has_ended = sys.stdout.isatty() and os.environ.get("TERM") != "dumb", threading.Event()

    def __enter__(self):
        if self.is_terminal:
            threading.Thread(target=self.refresh, daemon=True).start()
        return self

    def __exit__(self, *_):
        with self.lock:
            self.has_ended.set()
            self.clear()

    def refresh(self):
        while not self.has_ended.wait(1):
            self.draw()

    def clear(self):
        if self.is_terminal:
            print("\r\033[K", end="", flush=True)

    def draw(self):
        with self.lock:
            if not self.is_terminal or self.has_ended.is_set():
                return
            now = time.monotonic()
            running = ", ".join(f"{name} {span(now - since)}" for name, since in self.running.items())
            line = f"{self.name}: {self.done} of {self.number} crates, {span(now - self.begun)}; under way: {running or 'none'}"
            columns = shutil.get_terminal_size().columns
            print(f"\r\033[K{line[: columns - 1]}", end="", flush=True)

    def say(self, line):
        with self.lock:
            self.clear()
            print(f"{self.name}: {line}", flush=True)
            self.draw()

    def begin(self, crate):
        with self.lock:
            self.running[crate.name] = time.monotonic()
            self.draw()

    def end(self, crate, said):
        """Says what became of a crate, and returns how many seconds it took."""
        with self.lock:
            seconds = time.monotonic() - self.running.pop(crate.name)
            self.done += 1
            self.say(f"{self.done} of {self.number}: {crate.name} {said} ({span(seconds)})")
            return seconds


@contextlib.contextmanager
def stoppable(progress):
    """Ends the process at once where it is told to: rt's guard ends the checks, and what they haven't stamped counts for nothing. Python alone would wait
    for them."""

    def stop(number, _):
        # (the main thread may hold the lock)
        if progress.is_terminal:
            print("\r\033[K", end="", flush=True)
        print(f"{progress.name}: stopped after {progress.done} of {progress.number} crates; the next run goes on from there", file=sys.stderr, flush=True)
        for room in glob.glob(f"{TOP}/crates/*/out/rt-work-{os.getpid()}-*"):
            shutil.rmtree(room, ignore_errors=True)
        os._exit(128 + number)

    # Who ignores a hangup, as nohup does, goes on; an interrupt is ignored by what a script of sh runs beside itself, as embed/build does.
    numbers = [it for it in (signal.SIGHUP, signal.SIGINT, signal.SIGTERM) if it != signal.SIGHUP or signal.getsignal(it) != signal.SIG_IGN]
    was = {it: signal.signal(it, stop) for it in numbers}
    try:
        yield
    finally:
        for it, handler in was.items():
            signal.signal(it, handler)


@functools.cache
def share_work():
    """Has rt's routines share kept work among the checkouts on the machine, where the kit's can. They may be told so once."""
    share = getattr(load_rt(), "share_work", None)
    if share:
        share(True)


def prove(crates, name="libraries"):
    """Proves and builds the crates, but those that are built, and says how far it is. Each comes after those that it stands on, which are among them. name
    is the tool that says so. Returns how many there were to prove."""
    number = prove_left(crates, name)
    for it in crates:
        if it.is_program:
            mark(it)
    return number


def prove_left(crates, name):
    rt = load_rt()
    share_work()
    libraries = [it for it in crates if it.makes_rlib()]
    left = unbuilt([it for it in crates if it not in libraries] if libraries and are_of_a_gate(libraries) else crates)
    if not left:
        return 0
    if jobs():
        os.environ["RT_JOBS"] = str(jobs())
    lanes = jobs() or rt.processors()
    print(f"{name}: {len(left)} of {len(crates)} crates to prove, up to {lanes} at once: {expected(left, lanes)}", flush=True)
    print(f"{name}: stop it when you like: the next run goes on from there", flush=True)

    def work(crate, given, jobs):
        if not all(given.get((it.name, "proof"), True) for it in crate.below()):
            return False
        crate, kept = copy.copy(crate), f"{crate.folder}/out/incremental"
        os.makedirs(f"{crate.folder}/out", exist_ok=True)
        progress.begin(crate)
        is_new = not os.path.isdir(kept)
        with tempfile.TemporaryFile("w+", errors="replace") as crate.out:
            is_proved = make(crate, jobs)
            crate.out.seek(0)
            said = crate.out.read()
        seconds = progress.end(crate, "is proved" if is_proved else f"is NOT PROVED\n{said[-4000:]}")
        # What another checkout kept is no measure.
        if is_proved and is_new and os.path.isdir(kept) and "begins with what a check kept" not in said:
            with progress.lock:
                note(crate.name, seconds)
        return is_proved

    with Progress(name, len(left)) as progress, stoppable(progress):
        held = rt.rtlib.lock(left)
        try:
            tasks = {}
            for crate in left:
                waits = [(it.name, "proof") for it in crate.below() if it in left]
                # (what is called a proof gets the processors that no other waits for)
                tasks[crate.name, "proof"] = waits, crate.count(rb"\n"), rt.need(crate), functools.partial(work, crate)
            given = rt.in_lanes(tasks)
        finally:
            for it in held:
                os.close(it)
    failed = [name for name, _ in given if not given[name, "proof"]]
    if failed:
        raise Refused(f"not proved: {' '.join(failed)}")
    return len(left)
