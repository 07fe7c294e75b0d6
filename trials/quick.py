"""Runs of the program, one after another, as quickly as a process can be begun: what each wrote, its status and its time."""
import os, signal, sys, tempfile
from pathlib import Path

TOP = Path(__file__).resolve().parent.parent
PROGRAM = os.environ.get("APLSV", str(TOP / "crates/aplsv/out/aplsv"))
HANGS = "no end"


def program():
    """The program, or the end of the trial where it is not built."""
    if not os.access(PROGRAM, os.X_OK):
        sys.exit(f"trials: {PROGRAM} is not built: run ./aplsv first")
    return PROGRAM


class Run:
    """How a run came out."""

    def __init__(self, status, written, told, seconds, kilobytes):
        self.status, self.written, self.told, self.seconds, self.kilobytes = status, written, told, seconds, kilobytes

    @property
    def first(self):
        """The first line on standard error."""
        return self.told.decode(errors="replace").split("\n")[0]

    def ends(self):
        return f"{self.status} {self.first}".strip()


def is_left_waiting(child, patience):
    """Whether a process that has not ended does not run, though it might, because the machine is busy: so it needs more time."""
    ticks, states = 0, set()
    for path in Path(f"/proc/{child}/task").glob("*/stat"):
        try:
            fields = path.read_text().rsplit(")", 1)[1].split()
        except OSError:
            continue
        states.add(fields[0])
        ticks += int(fields[11]) + int(fields[12])
    return bool(states & set("RDTt")) and ticks < patience * os.sysconf("SC_CLK_TCK")


class Runner:
    """Runs over files in a room of its own. A run that waits for `patience` seconds on the clock, or takes as many of a processor, has
    no end: it is stopped, and has the status HANGS."""

    def __init__(self, patience=60):
        self.room = tempfile.TemporaryDirectory(dir="/dev/shm" if os.path.isdir("/dev/shm") else None)
        self.path, self.patience, self.child = Path(self.room.name), patience, None
        signal.signal(signal.SIGALRM, self.stop)

    def stop(self, *_):
        if self.child is None:
            return
        if is_left_waiting(self.child, self.patience):
            signal.setitimer(signal.ITIMER_REAL, 5)
        else:
            self.late = True
            os.kill(self.child, signal.SIGKILL)

    def run(self, words, given, env=None, front=()):
        """A run with these words over these bytes; `front` is a program that runs it, with its own words."""
        files = [self.path / name for name in ("given", "written", "told")]
        files[0].write_bytes(given)
        making = os.O_WRONLY | os.O_CREAT | os.O_TRUNC
        actions = [(os.POSIX_SPAWN_OPEN, 0, files[0], os.O_RDONLY, 0)]
        actions += [(os.POSIX_SPAWN_OPEN, number, files[number], making, 0o644) for number in (1, 2)]
        command = [*front, program(), *words]
        self.late = False
        self.child = os.posix_spawnp(command[0], command, os.environ if env is None else env, file_actions=actions)
        signal.setitimer(signal.ITIMER_REAL, self.patience)
        _, status, used = os.wait4(self.child, 0)
        self.child = None
        signal.setitimer(signal.ITIMER_REAL, 0)
        ends = HANGS if self.late else os.waitstatus_to_exitcode(status)
        return Run(ends, files[1].read_bytes(), files[2].read_bytes(), used.ru_utime + used.ru_stime, used.ru_maxrss)
