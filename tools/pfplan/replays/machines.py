"""Where the runs of `size` and `margins` go on: side by side on this machine, or over several by GNU parallel.

A run is the command `pfplan measure` with a rules text, the trace and words that hold no name of the user's: numbers
and networks. On this machine one process measures many texts, whose names are written to it. Names never come into a
command that a shell reads: the files of the runs have names of our own in a temporary folder, and what words are the
user's (the path of pfplan and of pfsrc) are quoted for the shell. On other machines pfplan has to stand under the same
path, or under the one that `--there` names; rules and trace are brought by rsync over ssh into a folder that goes when
they are done.
"""

import concurrent.futures
import contextlib
import os
import queue
import shlex
import shutil
import signal
import subprocess
import sys
import tempfile
import threading
from collections.abc import Mapping, Sequence
from dataclasses import dataclass, field
from pathlib import Path
from types import TracebackType

from pfplan.common.errors import Status, Trouble, reason_of
from pfplan.common.networks import Network
from pfplan.common.outputs import part_file
from pfplan.common.progress import Progress
from pfplan.common.repository import TOP
from pfplan.traces.entries import beside, write_entries

PACKAGES = {"parallel": "parallel", "rsync": "rsync", "ssh": "openssh-client"}
# pfplan needs no package beside the standard library, and a run starts faster without looking for some.
PLAIN = ("-S", "-E")
# Seconds that a run has to end by itself once it was told to.
GRACE = 5
SECONDS_TO_CLEAR = 20


@dataclass(frozen=True)
class Machines:
    """Which machines, and how many runs at a time on each. Without logins it is this machine alone."""

    jobs: int | None
    logins: tuple[str, ...] = ()
    login_files: tuple[Path, ...] = ()
    there: str | None = None

    @property
    def is_here(self) -> bool:
        """Whether all runs are on this machine, without GNU parallel."""
        return not self.logins and not self.login_files


@dataclass(frozen=True)
class Run:
    """What one run measures: a rules text. `beside` are texts that stand beside it in files of its name with these
    endings; all runs of one trace have the same endings."""

    rules: bytes
    beside: Mapping[str, str] = field(default_factory=dict)


def measure_words(users: Sequence[Network], moments: int) -> list[str]:
    """The words of `measure` that ask for so many moments and for these users: networks and numbers, no name of a
    file."""
    return [*([f"--users={','.join(map(str, users))}"] if users else []), f"--held={moments}"]


def check_parallel() -> None:
    """Trouble with status 4 where GNU parallel, rsync or ssh is not installed: it says which Debian package has it."""
    for name, package in PACKAGES.items():
        if shutil.which(name) is None:
            raise Trouble(f"--sshlogin: {name} is not here (Debian package {package})", Status.FAILED)
    version = subprocess.run(
        ["parallel", "--version"], capture_output=True, text=True, check=False, stdin=subprocess.DEVNULL
    )
    if not version.stdout.startswith("GNU parallel"):
        raise Trouble("--sshlogin: the command parallel is not that of GNU (Debian package parallel)", Status.FAILED)


class Runs:
    """Runs of one trace. Leaving it ends those that still go on, and takes the temporary folder away."""

    def __init__(self, machines: Machines, trace: Path, words: Sequence[str], entries: Sequence[str] = ()) -> None:
        """`words` follow the names of rules and trace in each run's command line. `entries` are those of tables that
        come by records."""
        self._machines = machines
        self._trace = trace
        self._words = list(words)
        self._entries = entries
        self._lock = threading.Lock()
        self._processes: set[subprocess.Popen[str]] = set()
        self._idle: queue.SimpleQueue[subprocess.Popen[str]] = queue.SimpleQueue()
        self._is_stopped = self._is_begun = False
        self._count = 0

    def __enter__(self) -> "Runs":
        self._place = tempfile.TemporaryDirectory(prefix="pfplan-")
        self._folder = Path(self._place.name)
        (self._folder / "kept").mkdir()
        if self._entries:
            with part_file(beside(self._folder / "all")) as out:
                write_entries(out, self._entries)
        if not self._machines.is_here:
            try:
                shutil.copyfile(self._trace, self._folder / "trace")
            except OSError as error:
                self._place.cleanup()
                raise Trouble(f"{self._folder}: the trace can't be copied: {reason_of(error)}", Status.FAILED) from None
        return self

    def __exit__(
        self, kind: type[BaseException] | None, error: BaseException | None, trace: TracebackType | None
    ) -> None:
        self._dismiss()
        self.stop()
        if error is not None and not self._machines.is_here and self._count:
            self._clear_there()
        self._place.cleanup()

    def measure(self, runs: Sequence[Run], progress: Progress | None = None) -> list[str]:
        """Runs each, and answers the line that each printed, in their order.

        Trouble with the run's own message and status where one fails; then the others are ended.
        """
        names = [self._write(it) for it in runs]
        if self._machines.is_here:
            return self._here(names, progress)
        return self._spread(names, sorted({ending for it in runs for ending in it.beside}), progress)

    def _write(self, run: Run) -> str:
        """Writes the files of a run, and answers the name of its rules."""
        name = f"rules-{self._count}"
        self._count += 1
        try:
            (self._folder / name).write_bytes(run.rules)
            for ending, text in run.beside.items():
                (self._folder / f"{name}{ending}").write_text(text, encoding="utf-8")
        except OSError as error:
            raise Trouble(f"{self._folder}: can't be written: {reason_of(error)}", Status.FAILED) from None
        return name

    def stop(self) -> None:
        """Ends all that run and waits for them; what has not ended in five seconds is killed."""
        with self._lock:
            self._is_stopped = True
            going = list(self._processes)
        for process in going:
            _end(process)

    def _here(self, names: Sequence[str], progress: Progress | None) -> list[str]:
        jobs = self._machines.jobs or os.cpu_count() or 1
        if jobs > 1 and len(names) > 1 and not self._is_begun:
            # what the first run counts serves all others
            return self._here(names[:1], progress) + self._here(names[1:], progress)
        self._is_begun = True
        pool = concurrent.futures.ThreadPoolExecutor(max_workers=min(jobs, max(1, len(names))))
        futures = [pool.submit(self._one, it) for it in names]
        try:
            for future in concurrent.futures.as_completed(futures):
                future.result()
                if progress:
                    progress.advance()
        except BaseException:
            pool.shutdown(wait=False, cancel_futures=True)
            self.stop()
            raise
        pool.shutdown()
        return [it.result() for it in futures]

    def _one(self, name: str) -> str:
        """One run on this machine, up to its end; the line that was printed."""
        process = self._worker()
        assert process.stdin is not None and process.stdout is not None and process.stderr is not None
        with contextlib.suppress(BrokenPipeError):
            process.stdin.write(f"{self._folder / name}\n")
            process.stdin.flush()
        said = process.stdout.readline()
        if not said.endswith("\n"):
            errors = process.stderr.read()
            status = process.wait()
            self._drop(process)
            raise _trouble(errors, status)
        self._idle.put(process)
        return said

    def _worker(self) -> "subprocess.Popen[str]":
        """A process that measures one rules text after another, as their names are written to it: one that has nothing
        to do, or a new one."""
        with contextlib.suppress(queue.Empty):
            return self._idle.get_nowait()
        entries = [f"--entries={beside(self._folder / 'all')}"] if self._entries else []
        command = [
            sys.executable,
            *PLAIN,
            str(TOP / "pfplan"),
            "measure",
            "-",
            str(self._trace.resolve()),
            *self._words,
            *entries,
            f"--kept={self._folder / 'kept'}",
        ]
        return self._start(command, self._folder)

    def _spread(self, names: Sequence[str], endings: Sequence[str], progress: Progress | None) -> list[str]:
        """Runs by GNU parallel, with the files of these endings beside the rules. Each prints one line, which begins
        with the name of its rules."""
        process = self._start(self._parallel(endings), self._folder)
        assert process.stdin is not None and process.stdout is not None and process.stderr is not None
        errors: list[str] = []
        reader = threading.Thread(target=errors.extend, args=(process.stderr,), daemon=True)
        reader.start()
        said: dict[str, str] = {}
        with contextlib.suppress(BrokenPipeError):
            process.stdin.write("\0".join(names))
            process.stdin.close()
        for line in process.stdout:
            name, _, rest = line.partition(" ")
            said[name] = rest
            if progress:
                progress.advance()
        status = process.wait()
        reader.join()
        self._drop(process)
        if status != 0 or set(said) != set(names):
            raise _trouble("".join(errors), status)
        return [said[it] for it in names]

    def _clear_there(self) -> None:
        """Takes away what runs that were ended left on other machines, as far as these can be reached."""
        command = ["parallel", "--plain", "--will-cite", "--nonall", *self._logins(), f"rm -rf -- {self._workdir}"]
        with contextlib.suppress(OSError, subprocess.TimeoutExpired, KeyboardInterrupt):
            subprocess.run(
                command,
                stdin=subprocess.DEVNULL,
                capture_output=True,
                timeout=SECONDS_TO_CLEAR,
                check=False,
                start_new_session=True,
            )

    @property
    def _workdir(self) -> str:
        """The folder of the runs on other machines, below the home there. Its last part is a name that tempfile made:
        letters, digits and `_`."""
        return f".parallel/tmp/{self._folder.name}"

    def _logins(self) -> list[str]:
        logins = [f"--sshlogin={it}" for it in self._machines.logins]
        return logins + [f"--sshloginfile={it.resolve()}" for it in self._machines.login_files]

    def _parallel(self, endings: Sequence[str]) -> list[str]:
        """The command line of GNU parallel, which brings the files of these endings with the rules. The last word is a
        shell's command: what is in it is quoted, or holds letters of our own."""
        machines = self._machines
        command = [
            "parallel",
            "--plain",
            "--will-cite",
            "--null",
            "--halt",
            "now,fail=1",
            "--cleanup",
            "--termseq",
            "TERM,2000,KILL,50",
        ]
        command += [f"--jobs={machines.jobs}"] if machines.jobs else []
        entries = beside(Path("all")).name if self._entries else ""
        command += [*self._logins(), "--workdir", self._workdir, "--basefile", "./trace", "--transferfile", "./{}"]
        command += [it for ending in endings for it in ("--transferfile", f"./{{}}{ending}")]
        command += ["--basefile", f"./{entries}"] if entries else []
        program = [f"PFSRC={os.environ['PFSRC']}"] if os.environ.get("PFSRC") else []
        path = machines.there or str(TOP / "pfplan")
        words = [shlex.quote(it) for it in ("env", *program, path, "measure", "--named")]
        # on this machine itself, the login `:`, nothing is brought: the files are where they were made
        here = f"test -e trace || cd {shlex.quote(str(self._folder))};"
        last = [*self._words, *([f"--entries={entries}"] if entries else [])]
        return [*command, " ".join([here, *words, "{}", "trace", *map(shlex.quote, last)])]

    def _start(self, command: Sequence[str], folder: Path) -> "subprocess.Popen[str]":
        """A process in a session of its own, so that an interrupt from the keyboard reaches it through `stop` alone."""
        with self._lock:
            if self._is_stopped:
                raise Trouble("ended", Status.INTERRUPTED)
            try:
                process = subprocess.Popen(
                    command,
                    stdin=subprocess.PIPE,
                    stdout=subprocess.PIPE,
                    stderr=subprocess.PIPE,
                    text=True,
                    cwd=folder,
                    start_new_session=True,
                )
            except OSError as error:
                raise Trouble(f"{command[0]}: can't be run: {reason_of(error)}", Status.FAILED) from None
            self._processes.add(process)
            return process

    def _dismiss(self) -> None:
        """Lets the processes that wait for a name end."""
        while not self._idle.empty():
            process = self._idle.get()
            process.communicate()
            self._drop(process)

    def _drop(self, process: "subprocess.Popen[str]") -> None:
        with self._lock:
            self._processes.discard(process)


def _end(process: "subprocess.Popen[str]") -> None:
    """Ends a process with all that it started in its session. GNU parallel ends its runs when it is told twice."""
    for number_of_signal in (signal.SIGTERM, signal.SIGTERM, signal.SIGKILL):
        with contextlib.suppress(ProcessLookupError, PermissionError):
            os.killpg(process.pid, number_of_signal)
        try:
            process.wait(timeout=GRACE if number_of_signal is signal.SIGTERM else None)
            break
        except subprocess.TimeoutExpired:
            continue


def _trouble(errors: str, status: int) -> Trouble:
    """What a run that failed said: its last line, without the name of the command; else what ssh, rsync or GNU parallel
    said first."""
    lines = [it.strip() for it in errors.splitlines() if it.strip() and not it.startswith("parallel: Warning: ")]
    own = [it for it in lines if it.startswith("pfplan measure: ")]
    said = own[-1] if own else lines[0] if lines else f"a run ended with status {status} and said nothing"
    known = status if own and status in set(Status) else Status.FAILED
    return Trouble(said.removeprefix("pfplan measure: "), known)
