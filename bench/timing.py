"""What a command takes: processor seconds and the peak of memory, within limits of time and memory."""
import dataclasses
import math
import os
import resource
import signal
import subprocess
import tempfile
import threading

TIME = "/usr/bin/time"
LIMITED = ["/bin/sh", "-c", 'ulimit -t "$0"; exec "$@"']
LIMIT_SECONDS = 60
LIMIT_CLOCK = 240
LIMIT_BYTES = 2 << 30
STACK_BYTES = 8 << 20
MOST_RUNS = 40
FITTED = 3
TOO_SHORT = 0.003


@dataclasses.dataclass(frozen=True)
class Taken:
    """What one size took: the least processor seconds of its runs, and the peak of memory of one run."""
    seconds: float
    megabytes: float


@dataclasses.dataclass(frozen=True)
class Ended:
    """How a single run ended."""
    seconds: float
    status: int
    is_late: bool
    printed: bytes


def set_limits():
    """Limits that each command takes over from this process."""
    resource.setrlimit(resource.RLIMIT_AS, (LIMIT_BYTES, LIMIT_BYTES))
    resource.setrlimit(resource.RLIMIT_STACK, (STACK_BYTES, resource.getrlimit(resource.RLIMIT_STACK)[1]))
    resource.setrlimit(resource.RLIMIT_CORE, (0, 0))


def run_once(command, folder, environment=None, is_printed=False):
    """Runs a command, and kills it with all that it started where it takes far too long on the clock."""
    late = threading.Event()
    with tempfile.TemporaryFile() as output:
        sink = output if is_printed else subprocess.DEVNULL
        process = subprocess.Popen(command, cwd=folder, env=environment, stdin=subprocess.DEVNULL, stdout=sink,
                                   stderr=subprocess.DEVNULL, start_new_session=True)

        def stop():
            late.set()
            os.killpg(process.pid, signal.SIGKILL)
        timer = threading.Timer(LIMIT_CLOCK, stop)
        timer.start()
        _, status, usage = os.wait4(process.pid, 0)
        timer.cancel()
        process.returncode = os.waitstatus_to_exitcode(status)
        output.seek(0)
        return Ended(usage.ru_utime + usage.ru_stime, process.returncode, late.is_set(), output.read())


def measure(command, folder, rounds, environment=None, good=(0,)):
    """What a command takes, or in a word why it can't be told."""
    with tempfile.NamedTemporaryFile("r") as told:
        first = run_once([*LIMITED, str(LIMIT_SECONDS), TIME, "-q", "-o", told.name, "-f", "%M", *command], folder, environment)
        kilobytes = told.read().split()
    if first.is_late or first.seconds >= LIMIT_SECONDS - 1:
        return f"over {LIMIT_SECONDS} s"
    if first.status not in good:
        return "over 2 GB" if kilobytes and int(kilobytes[-1]) << 10 > LIMIT_BYTES // 2 else "gave up"
    megabytes = int(kilobytes[-1]) / 1024
    left = 0 if first.seconds > 5 else min(MOST_RUNS, max(rounds, math.ceil(0.2 / max(first.seconds, 0.001))))
    runs = [run_once(command, folder, environment) for _ in range(left)]
    return Taken(min([first.seconds, *(run.seconds for run in runs if run.status in good and not run.is_late)]), megabytes)


def growth(sizes):
    """The exponent of the size in the seconds of the three largest sizes, without those of the smallest: least squares on the
    logarithms. `sizes` maps a size to what it took."""
    taken = sorted((size, cell.seconds) for size, cell in sizes.items() if isinstance(cell, Taken))
    if len(taken) <= FITTED:
        return "-"
    start = taken[0][1]
    points = [(math.log(size), seconds - start) for size, seconds in taken[-FITTED:]]
    if min(seconds for _, seconds in points) < TOO_SHORT:
        return "-"
    points = [(size, math.log(seconds)) for size, seconds in points]
    middle = sum(size for size, _ in points) / FITTED
    height = sum(seconds for _, seconds in points) / FITTED
    slope = sum((size - middle) * (seconds - height) for size, seconds in points)
    return f"{slope / sum((size - middle) ** 2 for size, _ in points):.2f}"


def seconds_text(cell):
    """Seconds in three digits, or why there are none."""
    if not isinstance(cell, Taken):
        return cell
    digits = 4 if cell.seconds < 0.1 else 3 if cell.seconds < 1 else 2
    return f"{cell.seconds:.{digits}f}"
