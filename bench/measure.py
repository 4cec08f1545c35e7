"""What the bench scripts share: their words, running programs in turns, and writing tables."""
import argparse
import os
import re
import statistics
import subprocess
import sys
import tempfile
import time
import traceback
from collections import namedtuple

TOP = os.path.dirname(os.path.dirname(os.path.abspath(__file__)))
NAME = os.path.basename(sys.argv[0])
LAUNCHER = f"{TOP}/postcopy"

# The processors that a command may use: all that there are.
PROCESSORS = sorted(os.sched_getaffinity(0))
ALL = len(PROCESSORS)

# The program that is measured, among others that take turns with it.
OURS = ""

# Of a run: the seconds that passed, the seconds of all processors, and the most memory that it held, in bytes.
Took = namedtuple("Took", "seconds busy memory")


def say(text):
    print(f"bench/{NAME}: {text}", file=sys.stderr, flush=True)


left_out = set()


def leave_out(what):
    """Says once what is left out."""
    if what not in left_out:
        left_out.add(what)
        say(f"left out: {what}")


# The words of a script.


def default_program():
    """The program that the variable POSTCOPY names, or as it was built here, or the shipped one."""
    if os.environ.get("POSTCOPY"):
        return os.environ["POSTCOPY"]
    built = f"{TOP}/crates/postcopy/out/postcopy"
    return built if os.access(built, os.X_OK) else f"{TOP}/shipped/x86_64-linux/postcopy"


def named_program(text):
    name, mark, path = text.partition("=")
    if not mark or not name or not os.access(path, os.X_OK):
        raise argparse.ArgumentTypeError(f"'{text}' is no NAME=PROGRAM")
    return name, os.path.abspath(path)


def add_programs(words):
    words.add_argument("--program", type=os.path.abspath, default=default_program(), metavar="PROGRAM", help="what is measured")
    words.add_argument("--beside", type=named_program, action="append", default=[], metavar="NAME=PROGRAM",
                       help="another program with the same commands, which takes turns with it; tables get a column of ratios")


def options(doc, times):
    """The words that the scripts share: the programs, how many runs, and a quick try."""
    words = argparse.ArgumentParser(description=doc, formatter_class=argparse.RawDescriptionHelpFormatter)
    add_programs(words)
    words.add_argument("--times", type=int, metavar="N", help=f"of so many runs the best counts: {times}")
    words.add_argument("--quick", action="store_true", help="a try with small texts and two runs, whose numbers are of no worth")
    return words


def parsed(words, times, given=None):
    """The words of the command line, with `programs`: each program by its name."""
    chosen = words.parse_args(given)
    chosen.times = chosen.times or (2 if chosen.quick else times)
    chosen.programs = {OURS: chosen.program, **dict(chosen.beside)}
    return chosen


# Running.


def surroundings():
    """The variables of a run: memory is given as the system does it unless it is told otherwise."""
    return {name: value for name, value in os.environ.items() if name != "GLIBC_TUNABLES"}


def tunables():
    """How the launcher has memory given, by its text."""
    with open(LAUNCHER, encoding="utf-8") as file:
        found = dict.fromkeys(re.findall(r"glibc\.malloc\.\w+=\d+", file.read()))
    return {"GLIBC_TUNABLES": ":".join(found)}


def took(words, status=0, processors=ALL, given=os.devnull, written=os.devnull, extra=()):
    """What a run of a command took on so many processors, with these variables more. A run with another status ends the bench."""
    with open(given, "rb") as text, open(written, "wb") as out:
        os.sched_setaffinity(0, PROCESSORS[:processors])
        start = time.monotonic()
        child = subprocess.Popen(words, stdin=text, stdout=out, env={**surroundings(), **dict(extra)})
        os.sched_setaffinity(0, PROCESSORS)
        _, ended, usage = os.wait4(child.pid, 0)
        seconds = time.monotonic() - start
    child.returncode = os.waitstatus_to_exitcode(ended)
    if child.returncode != status:
        sys.exit(f"bench/{NAME}: {' '.join(words)} ended with status {child.returncode}, and not {status}")
    return Took(seconds, usage.ru_utime + usage.ru_stime, usage.ru_maxrss * 1024)


def best(runs, key=lambda run: run.seconds):
    """The best of some runs, with the most memory of any."""
    return min(runs, key=key)._replace(memory=max(run.memory for run in runs))


def runs_in_turns(ways, times):
    """All runs of each way to run something, by its name. They take turns, so that a busy machine is as bad for each."""
    found = {name: [] for name in ways}
    for _ in range(times):
        for name, way in ways.items():
            found[name].append(way())
    return found


def in_turns(ways, times, key=lambda run: run.seconds):
    """The best run of each way to run something."""
    return {name: best(runs, key) for name, runs in runs_in_turns(ways, times).items()}


def middle_ratio(runs, others):
    """How many times the seconds of all processors some runs took that others took in the same turns: the median of the turns."""
    return statistics.median(run.busy / other.busy for run, other in zip(runs, others))


def status_of(words, wanted):
    """The status of a command, or None where what it writes does not begin as wanted."""
    with tempfile.TemporaryFile() as out:
        done = subprocess.run(words, stdin=subprocess.DEVNULL, stdout=out, stderr=subprocess.DEVNULL, env=surroundings(), check=False)
        out.seek(0)
        return done.returncode if out.read(len(wanted)) == wanted else None


def compared(programs, words, wanted, counts, times):
    """The best runs of a command by each program, and on so many processors each. Another program that does not answer as
    wanted has none."""
    ways = {}
    for name, program in programs.items():
        status = status_of([program, *words], wanted)
        if status is None and name == OURS:
            sys.exit(f"bench/{NAME}: {program} {' '.join(words)} does not answer {wanted!r}")
        if status is None:
            leave_out(f"{name} has no such answer to '{words[0]}'")
            continue
        for count in counts if name == OURS else sorted({1, max(counts)}):
            ways[name, count] = lambda program=program, status=status, count=count: took([program, *words], status, count)
    return in_turns(ways, times)


def processor_counts():
    """On how many processors a curve is taken: 1 to 4, and on larger machines 1, 2, 4 and 8, since no more threads start."""
    return [it for it in (range(1, 5) if ALL <= 4 else (1, 2, 4, 8)) if it <= ALL]


# Making texts.


def made_in_child(maker):
    """Calls a maker and ends the process, whatever happens."""
    try:
        maker()
        os._exit(0)
    except BaseException:
        traceback.print_exc()
        sys.stderr.flush()
        os._exit(1)


def side_by_side(makers):
    """Calls each maker in a process of its own, as many at a time as there are processors. A child is told to hold at least
    what its parent held when it began, so the bench itself stays small."""
    left, running = list(makers), 0
    while left or running:
        if left and running < ALL:
            maker = left.pop(0)
            running += 1
            if os.fork() == 0:
                made_in_child(maker)
        else:
            running -= 1
            if os.wait()[1]:
                sys.exit(f"bench/{NAME}: a text was not made")


def write(path, text):
    with open(path, "w", encoding="ascii") as file:
        file.write(text)


def folder():
    return tempfile.TemporaryDirectory(prefix="postcopy-bench-")


# Tables.


def number(count):
    return f"{count:,}"


def short(value):
    """A number of a time: two digits or three."""
    return f"{value:.1f}" if value < 99.95 else f"{value:,.0f}"


def milliseconds(seconds):
    return short(seconds * 1e3)


def megabytes(size):
    return f"{size / 1e6:.1f} MB" if size < 9.95e6 else f"{size / 1e6:,.0f} MB"


def mebibytes(size):
    return f"{size / 2**20:,.0f} MiB"


def pair(show, runs, name=OURS):
    """What is shown of a run on all processors, and after a stroke on one; nothing of a program that did not run."""
    counts = sorted(count for program, count in runs if program == name)
    if not counts:
        return ""
    return " / ".join(show(runs[name, count]) for count in dict.fromkeys((counts[-1], counts[0])))


def ratios(runs, name):
    """How many times as long as another program it took, on all processors and on one."""
    if not any(program == name for program, _ in runs):
        return ""
    counts = sorted(count for program, count in runs if program == name)
    return " / ".join(f"{runs[OURS, count].seconds / runs[name, count].seconds:.2f}" for count in dict.fromkeys((counts[-1], counts[0])))


def others(programs):
    return [name for name in programs if name != OURS]


def row(cells):
    return re.sub(r"\|  (?=\|)", "| ", f"| {' | '.join(cells)} |\n")


def table(head, rows):
    return row(head) + "|" + "---|" * len(head) + "\n" + "".join(map(row, rows))


def block(name, *parts):
    """Prints what the page of performance has between the marks of this name."""
    print(f"<!-- bench: {name} -->\n\n" + "\n".join(parts) + "\n<!-- end -->", flush=True)
