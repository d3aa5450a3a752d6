"""engines: what `tests/cluster` and `bench/parts` share: the recipes of docs/PARTS.md, processes that are ended by
their ids, and a cluster of Dask on this machine."""
import ctypes
import os
import re
import shutil
import signal
import socket
import subprocess
import tempfile
import time
from contextlib import contextmanager, suppress
from pathlib import Path

PAGE = Path(__file__).resolve().parent.parent / "docs/PARTS.md"
# The folders of programs that the PATH of a user may lack.
SBIN = "/usr/local/sbin", "/usr/sbin", "/sbin"
SIGNALS = signal.SIGHUP, signal.SIGINT, signal.SIGTERM
# The call of the system by which what descendants leave becomes a child of this process.
SET_CHILD_SUBREAPER = 36


def recipes():
    """The blocks of docs/PARTS.md under each heading: the language and the lines of each."""
    found, heading = {}, ""
    for line, language, text in re.findall(r"^#+ ([^\n]*)$|^```(\w+)\n(.*?)^```$", PAGE.read_text(), re.M | re.S):
        heading = line or heading
        found.setdefault(heading, [])
        if text:
            found[heading].append((language, text))
    return {heading: blocks for heading, blocks in found.items() if blocks}


def blocks(heading, parts):
    """The lines of the blocks under a heading, for this number of parts instead of 64."""
    texts = [text for _, text in recipes().get(heading, [])]
    return [re.sub(r"\b64\b", str(parts), text) for text in texts]


def until(test, seconds=60):
    """What `test` returns, as soon as that is true, otherwise its last result."""
    end = time.monotonic() + seconds
    while not (found := test()) and time.monotonic() < end:
        time.sleep(0.1)
    return found


def free_port():
    with socket.socket() as it:
        it.bind(("127.0.0.1", 0))
        return it.getsockname()[1]


def end_by_signals():
    """Has the first SIGHUP, SIGINT or SIGTERM end this script like an error. After `nohup`, SIGHUP stays ignored."""
    def end(number, _):
        for it in SIGNALS:
            signal.signal(it, signal.SIG_IGN)
        raise SystemExit(128 + number)
    for it in SIGNALS:
        if it != signal.SIGHUP or signal.getsignal(it) is not signal.SIG_IGN:
            signal.signal(it, end)


@contextmanager
def signals_wait():
    """Meanwhile, signals wait."""
    signal.pthread_sigmask(signal.SIG_BLOCK, SIGNALS)
    try:
        yield
    finally:
        signal.pthread_sigmask(signal.SIG_UNBLOCK, SIGNALS)


def children(process):
    """The ids of a process's children."""
    found = set()
    with suppress(OSError):  # which comes if it ends meanwhile
        for thread in os.listdir(f"/proc/{process}/task"):
            with suppress(OSError):
                found |= set(map(int, Path(f"/proc/{process}/task/{thread}/children").read_text().split()))
    return found


def descendants(*processes):
    """The ids of the children of processes, of the children of these, and so on."""
    found, new = set(), set(processes)
    while new:
        its = children(new.pop()) - found
        found |= its
        new |= its
    return found


class Processes:
    """Processes that run in a folder, or in the folder `work` in it, each in a session of its own. They make their
    temporary files in that folder too, since one that is killed leaves them."""

    def __init__(self):
        self.folder, self.work, self.env, self.started = None, None, dict(os.environ), {}
        ctypes.CDLL(None).prctl(SET_CHILD_SUBREAPER, 1, 0, 0, 0)

    def start(self, *words, **env):
        """Starts a process. What it prints goes to the file `log` of the process."""
        path = self.folder / f"{len(self.started)}.log"
        own = {**self.env, "TMPDIR": str(self.folder), **env}
        with path.open("wb") as log:
            it = subprocess.Popen([str(word) for word in words], cwd=self.work or self.folder, env=own,
                                  stdin=subprocess.DEVNULL, stdout=log, stderr=log, start_new_session=True)
        it.log = path
        self.started[it.pid] = it
        return it

    def run(self, *words, seconds=300, **env):
        """The status of a process, and what it prints."""
        it = self.start(*words, **env)
        status = it.wait(seconds)
        return status, it.log.read_text(errors="replace")

    def left(self):
        """The ids of all processes that were started, or that these started, and that haven't ended."""
        running = {it for it, process in self.started.items() if process.poll() is None}
        for it in children(os.getpid()) - set(self.started):
            with suppress(ChildProcessError):
                os.waitpid(it, os.WNOHANG)
        return sorted(running | descendants(os.getpid(), *running))

    def end(self):
        """Ends them all, and removes the folder."""
        with signals_wait():
            for number in (signal.SIGTERM, signal.SIGKILL, signal.SIGKILL):
                for it in self.left():
                    with suppress(ProcessLookupError):
                        os.kill(it, number)
                if until(lambda: not self.left(), 10):
                    break
            if self.folder is not None:
                shutil.rmtree(self.folder, ignore_errors=True)


@contextmanager
def temporary(prefix):
    """A temporary folder and the processes that run in it, which are ended with it."""
    processes = Processes()
    try:
        try:
            with signals_wait():
                processes.folder = Path(tempfile.mkdtemp(prefix=prefix)).resolve()
            yield processes
        finally:
            processes.end()
    finally:
        processes.end()  # again, if a signal came just before the first time


def python_of_dask():
    """The first python3 on the PATH that has Dask's `distributed`, None if there is none."""
    for folder in os.environ["PATH"].split(os.pathsep):
        it = shutil.which("python3", path=folder)
        if it and subprocess.run([it, "-c", "import distributed"], capture_output=True).returncode == 0:
            return it
    return None


def start_dask(processes, python, workers):
    """Starts a scheduler of Dask and this number of workers. Returns the address, and the process above the workers."""
    address = f"127.0.0.1:{free_port()}"
    own = "--host", "127.0.0.1", "--dashboard-address", "127.0.0.1:0"
    scheduler = processes.start(python, "-m", "dask", "scheduler", "--port", address.split(":")[1], *own)
    until(lambda: "Scheduler at" in scheduler.log.read_text() or scheduler.poll() is not None)
    its = processes.start(python, "-m", "dask", "worker", address, "--nworkers", workers, "--nthreads", "1", *own,
                          "--local-directory", processes.folder / "workers")
    if not until(lambda: its.log.read_text().count("Registered to") == workers or its.poll() is not None, 120):
        raise RuntimeError(f"Dask has no workers: {scheduler.log.read_text()[-1000:]}{its.log.read_text()[-1000:]}")
    return address, its
