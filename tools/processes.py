"""Commands that run side by side, end with the tool that started them, and are spoken of while they run."""
import concurrent.futures
import os
import pathlib
import signal
import subprocess
import threading
import time

# Seconds between two signs of life
PATIENCE = 15


class Missing(Exception):
    """The kit, or the machine, lacks what the work needs."""


class Stopped(Exception):
    """The work was stopped from outside."""


# ---- processes that end with this one

running = {}
stopped = threading.Event()


def begin(words, **more):
    """Starts a command in a group of its own."""
    if stopped.is_set():
        raise Stopped
    try:
        child = subprocess.Popen([str(word) for word in words], start_new_session=True, **more)
    except FileNotFoundError:
        raise Missing(f"{words[0]} is not there") from None
    running[child.pid] = child
    return child


def end(child):
    """Ends a command and what it started."""
    if child.poll() is None:
        child.send_signal(signal.SIGTERM)
        try:
            child.wait(5)
        except subprocess.TimeoutExpired:
            pass
    try:
        os.killpg(child.pid, signal.SIGKILL)
    except ProcessLookupError:
        pass
    child.wait()
    running.pop(child.pid, None)


def end_those_in(folder):
    """Ends what still runs with its temporary files in the folder: what `rt` started just before it was ended itself."""
    sign, found = f"TMPDIR={folder}".encode(), True
    while found:
        found = False
        for process in pathlib.Path("/proc").glob("[0-9]*"):
            try:
                if sign in (process / "environ").read_bytes():
                    os.kill(int(process.name), signal.SIGKILL)
                    found = True
            except OSError:
                pass
        time.sleep(0.05 * found)


def status_of(words, log, **more):
    """Runs a command, whose outputs go to the file `log`; returns its status."""
    with open(log, "wb") as said:
        child = begin(words, **{"stdin": subprocess.DEVNULL, **more}, stdout=said, stderr=said)
        try:
            status = child.wait()
        finally:
            end(child)
    if stopped.is_set():
        raise Stopped
    return status


def need(words, log, **more):
    """Runs a command that must succeed; where it fails, its last lines are the reason."""
    status = status_of(words, log, **more)
    if status != 0:
        raise Missing(f"{pathlib.Path(words[0]).name} ended with status {status}:\n{last_lines(log)}")


def last_lines(log, count=20):
    return "\n".join(log.read_text(errors="replace").splitlines()[-count:]) if log.exists() else ""


def stop():
    """Ends all commands that run."""
    stopped.set()
    for child in list(running.values()):
        try:
            child.send_signal(signal.SIGTERM)
        except ProcessLookupError:
            pass


def stop_by_signals():
    """Has SIGTERM and SIGHUP end the work as Ctrl-C does."""
    def interrupt(*_):
        raise KeyboardInterrupt
    for number in (signal.SIGTERM, signal.SIGHUP):
        signal.signal(number, interrupt)


# ---- many side by side

class Voice:
    """Prints lines from many threads, each with the seconds since the start.

    Inside `with` it also gives a sign of life where nothing was printed for PATIENCE seconds.
    """

    def __init__(self, what):
        self.lock, self.quiet, self.works = threading.Lock(), threading.Event(), [what]
        self.start = self.spoke = time.monotonic()

    def __call__(self, line):
        with self.lock:
            self.spoke = time.monotonic()
            print(f"[{self.seconds():4.0f} s] {line}", flush=True)

    def seconds(self):
        return time.monotonic() - self.start

    def __enter__(self):
        def beat():
            while not self.quiet.wait(1):
                if time.monotonic() - self.spoke >= PATIENCE - 1:
                    self(f"still at work: {', '.join(self.works[1:] or self.works)}")
        threading.Thread(target=beat, daemon=True).start()
        return self

    def __exit__(self, *_):
        self.quiet.set()


def side_by_side(works, voice, count):
    """Does works, given as pairs of a name and a call, `count` at a time, and returns what they return.

    The first failure ends every command that was started, and is raised; so does Ctrl-C.
    """
    def one(name, call):
        if stopped.is_set():
            raise Stopped
        voice.works.append(name)
        try:
            return call()
        finally:
            voice.works.remove(name)
    with concurrent.futures.ThreadPoolExecutor(count) as pool:
        waits = [pool.submit(one, name, call) for name, call in works]
        try:
            left = set(waits)
            while left:
                done, left = concurrent.futures.wait(left, 1, concurrent.futures.FIRST_EXCEPTION)
                if any(it.exception() for it in done):
                    break
        except KeyboardInterrupt:
            stop()
            raise
        if left:
            stop()
    failures = [it.exception() for it in waits if it.exception()]
    for failure in sorted(failures, key=lambda it: isinstance(it, Stopped)):
        raise failure
    return [it.result() for it in waits]
