"""What the scripts of this folder share: the program, scripts for it, and runs that are timed."""
import os
import platform
import shutil
import statistics
import subprocess
import sys
import tempfile
import time
from pathlib import Path

TOP = Path(__file__).resolve().parent.parent
PROGRAM = TOP / "crates/optsql/out/optsql"
FILE_BYTES = 1024 + 2 * (16 << 20)


def need(*tools):
    """Ends, with nothing measured, where the program or a tool isn't there."""
    missing = [tool for tool in tools if shutil.which(tool) is None]
    if not PROGRAM.exists():
        missing.append(f"{PROGRAM} (./optsql builds it)")
    if missing:
        print("skipped: there is no " + ", ".join(missing))
        sys.exit(0)


def folder():
    """A new folder on the disk of the current one, which goes with the program."""
    return tempfile.TemporaryDirectory(prefix="optsql-bench-", dir=".")


def machine():
    """The machine, in a line."""
    model = platform.processor() or platform.machine()
    try:
        for line in Path("/proc/cpuinfo").read_text().split("\n"):
            if line.startswith("model name"):
                model = line.split(":", 1)[1].strip()
                break
    except OSError:
        pass
    disk = subprocess.run(["df", "--output=source,fstype", "."], capture_output=True, text=True)
    where = " ".join(disk.stdout.split("\n")[1].split()) if disk.returncode == 0 else "?"
    load = os.getloadavg()[0]
    return (f"{model}, {os.cpu_count()} processors, Linux {platform.release()}, {where}, "
            f"load {load:.1f}, {time.strftime('%Y-%m-%d')}")


def inserts(commits, first=1):
    """A script of so many transactions, each of which inserts a row and commits."""
    return "".join(f"1 START\n1 INSERT INTO KV VALUES ({k},{k})\n1 COMMIT\n"
                   for k in range(first, first + commits))


def create(where):
    """A new database in the folder."""
    subprocess.run([PROGRAM, "create"], cwd=where, check=True)


def timed(words, where, script, said):
    """Runs the words in the folder with the file `script` as input, and answers the seconds."""
    with open(script, "rb") as given, open(said, "wb") as taken:
        begun = time.monotonic()
        subprocess.run(words, cwd=where, stdin=given, stdout=taken, check=True)
        return time.monotonic() - begun


def play(where, script, said):
    """Plays the script over the database in the folder, and answers the seconds."""
    return timed([PROGRAM, "play"], where, script, said)


def watched(words, where, script="/dev/null", said="/dev/null"):
    """Runs the words in the folder on the script, and answers the seconds by the clock and those of
    the processors."""
    with open(script, "rb") as given, open(said, "wb") as taken:
        begun = time.monotonic()
        child = subprocess.Popen(words, cwd=where, stdin=given, stdout=taken)
        _, status, usage = os.wait4(child.pid, 0)
        clock = time.monotonic() - begun
    child.returncode = os.waitstatus_to_exitcode(status)
    if child.returncode != 0:
        sys.exit(f"{words} failed")
    return clock, usage.ru_utime + usage.ru_stime


class Player:
    """A program that is asked line by line: the one that is measured, unless it is named."""

    def __init__(self, where, *words):
        self.child = subprocess.Popen(words or [PROGRAM, "play"], cwd=where, bufsize=1 << 16,
                                      stdin=subprocess.PIPE, stdout=subprocess.PIPE)

    def __enter__(self):
        return self

    def __exit__(self, *_):
        self.close()

    def expect(self, lines, replies, count=0):
        """Asks all lines at once, and reads the replies, or so many where they aren't given."""
        self.child.stdin.write(lines.encode())
        self.child.stdin.flush()
        count = count if replies is None else replies.count("\n")
        said = b"".join(self.child.stdout.readline() for _ in range(count)).decode()
        if replies is not None and said != replies:
            sys.exit(f"{lines[:200]!r}: wanted {replies[:200]!r}, got {said[:200]!r}")

    def memory(self, word):
        """What the system tells of the program's memory under this word, in bytes."""
        status = Path(f"/proc/{self.child.pid}/status").read_text()
        found = next(line for line in status.split("\n") if line.startswith(word + ":"))
        return int(found.split()[1]) * 1024

    def close(self):
        self.child.stdin.close()
        self.child.stdout.close()
        self.child.wait()


def opening_memory(where):
    """The greatest memory of a play up to its first reply, in bytes.

    The system tells it of the process itself. What it tells of a process that has ended may be the
    memory of the one that started it.
    """
    with subprocess.Popen([PROGRAM, "play"], cwd=where, stdin=subprocess.PIPE,
                          stdout=subprocess.PIPE) as child:
        child.stdin.write(b"1 START\n")
        child.stdin.flush()
        if child.stdout.readline() != b"1 OK\n":
            sys.exit("an opening failed")
        status = Path(f"/proc/{child.pid}/status").read_text()
        child.stdin.close()
    most = next(line for line in status.split("\n") if line.startswith("VmHWM:"))
    return int(most.split()[1]) * 1024


def spread(seconds):
    """The median of the runs, and between which they lie."""
    return f"{statistics.median(seconds):.3f} s ({min(seconds):.3f} to {max(seconds):.3f})"
