"""Reads journals, runs hplan and counts comparisons.

The scripts tools/kills, tools/torn and tools/failing share it. It reads a journal by itself, as
docs/FORMATS.md describes the bytes, so that hplan is not asked about its own file.
"""
import argparse
import os
import pathlib
import resource
import subprocess

ROOT = pathlib.Path(__file__).resolve().parent.parent
PATIENCE = 120
DEVICE = b"hplan: 35 Device\n"


class Score:
    """Counts the comparisons that held and those that did not."""

    def __init__(self):
        self.passed = 0
        self.failed = 0

    def want(self, name, wanted, got):
        """Compares an answer with the wanted one, and reports whether they are the same."""
        if wanted == got:
            self.passed += 1
            return True
        self.failed += 1
        print(f"{name}: wanted {brief(wanted)}, got {brief(got)}", flush=True)
        return False

    def end(self):
        """Prints the last line, and returns the status."""
        print(f"{self.passed} passed, {self.failed} failed")
        return 1 if self.failed else 0


class Task:
    """A task with its known verdict."""

    def __init__(self, folder, name, verdict):
        self.name = name
        self.texts = [str(folder / name / text) for text in ("domain.pddl", "problem.pddl")]
        self.verdict = verdict
        self.status = 10 if verdict == "no plan" else 0
        self.certified = f"certified {'' if self.status else 'optimal'}{verdict}\n".encode()

    def is_answer(self, output, errors):
        """Reports whether the two streams have just a whole answer with the known verdict."""
        if self.status == 10:
            return (output, errors) == (b"", b"no plan\n")
        lines = output.decode().split("\n") if errors == b"" else []
        plain = all(line[:1] == "(" and line[-1:] == ")" for line in lines[:-2])
        return len(lines) > 1 and lines[-1] == "" and lines[-2] == self.verdict and plain


def brief(value):
    """Shows a value in at most 300 characters."""
    text = repr(value)
    return text if len(text) <= 3000 else text[:2997] + "..."


def options(description, counts):
    """Returns the reader of the options that the three scripts have."""
    reader = argparse.ArgumentParser(description=description)
    reader.add_argument("program", nargs="?", default=str(ROOT / "hplan"), metavar="PROGRAM")
    reader.add_argument("--quick", action="store_true", help="take less than 30 seconds")
    reader.add_argument("--tasks", type=pathlib.Path, help="a further folder with costs.txt")
    reader.add_argument("--seed", type=int, default=1, help="first number of the choices")
    reader.add_argument("--minutes", type=float, help="end after this time at the latest")
    if counts:
        reader.add_argument("--count", type=int, help=counts)
    return reader


def tasks_of(folder):
    """Returns the tasks that the costs.txt of a folder lists."""
    rows = [line.split(" ", 1) for line in (folder / "costs.txt").read_text().splitlines() if line]
    return [Task(folder, name, verdict.strip()) for name, verdict in rows]


def small_tasks(chosen, most):
    """Returns the tasks of examples/, and those of the folder of --tasks that are small.

    A task is small if `solve` takes at most `most` seconds of processor.
    """
    tasks = tasks_of(ROOT / "examples")
    limit = int(most) + 1
    for task in tasks_of(chosen.tasks.resolve()) if chosen.tasks else []:
        before = processor_time()
        run([os.path.abspath(chosen.program), "solve", *task.texts, "--workers", "1"],
            preexec_fn=lambda: resource.setrlimit(resource.RLIMIT_CPU, (limit, limit + 1)))
        if processor_time() - before <= most:
            tasks.append(task)
    print(f"{len(tasks)} tasks: {', '.join(task.name for task in tasks)}", flush=True)
    return tasks


def processor_time():
    """Returns the seconds of processor that all runs took that have ended."""
    used = resource.getrusage(resource.RUSAGE_CHILDREN)
    return used.ru_utime + used.ru_stime


def read_journal(data):
    """Returns what the bytes of a file are read as, and those of its entries in whole groups."""
    if len(data) <= 1:
        return "no header", b""
    if len(data) <= 39 and data[0] == 0:
        return "being made", b""
    if len(data) < 39 or data[1:6] not in (b"HDPJ\x01", b"HDPJ\x02"):
        return "foreign", b""
    if len(data) > 39 and data[0] != 1:
        return "foreign", b""
    width = 8 if data[5] == 1 else 9
    place, parts = 38, []
    while data[place] == 1:
        count = int.from_bytes(data[place + 1:place + 5], "little")
        end = place + 5 + count * width
        if not 1 <= count <= 65536 or end >= len(data):
            return "damaged", b"".join(parts)
        parts.append(data[place + 5:end])
        place = end
    return "journal", b"".join(parts)


def part_of(chance, data):
    """Returns a prefix of a journal in whole groups, its last gate closed."""
    gates, place = [38], 38
    while data[place] == 1:
        place += 5 + 9 * int.from_bytes(data[place + 1:place + 5], "little")
        gates.append(place)
    return data[:chance.choice(gates)] + b"\x00"


def bytes_of(path):
    """Returns the bytes of a file, or none if it is not there."""
    try:
        with open(path, "rb") as file:
            return file.read()
    except FileNotFoundError:
        return None


def size_of(path):
    """Returns the size of a file, or 0 if it is not there."""
    try:
        return os.stat(path).st_size
    except FileNotFoundError:
        return 0


def run(words, **more):
    """Returns the status, the output and the errors of a run."""
    try:
        done = subprocess.run(words, stdin=subprocess.DEVNULL, capture_output=True,
                              timeout=PATIENCE, **more)
    except subprocess.TimeoutExpired:
        return "no end", b"", b""
    return done.returncode, done.stdout, done.stderr


def finish(score, name, program, task, journal, workers, before=b""):
    """Lets a search go on to its end; its verdict, its file and what certify shows are compared.

    `before` are entries that the journal must still begin with.
    """
    data = bytes_of(journal)
    verb = "resume" if data else "solve"
    words = [*task.texts, "--journal", str(journal)]
    status, out, err = run([program, verb, *words, "--workers", str(workers)])
    held = score.want(f"{name}: {verb} {err}", (task.status, True),
                      (status, task.is_answer(out, err)))
    kind, entries = read_journal(bytes_of(journal) or b"")
    held &= score.want(f"{name}: the file at the end", ("journal", True),
                       (kind, entries.startswith(before)))
    held &= score.want(f"{name}: certify", (0, task.certified, b""),
                       run([program, "certify", *words]))
    return held, out
