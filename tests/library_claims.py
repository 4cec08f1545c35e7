"""What docs/EMBEDDING.md claims that a call takes of the stack and of the heap, beside what calls take over sessions of many kinds."""
import os
import re
import subprocess
import sys

from case_table import case_files

TOP = os.path.dirname(os.path.dirname(os.path.abspath(__file__)))
RECORDS = (1 << 17) + 1  # of a log, which grows by doubling: it has room for nearly twice as many then


def texts():
    """The texts that the benches make."""
    sys.path.append(f"{TOP}/bench")
    import texts as made
    return made


def of_one_log(log, record):
    """A session of the second version of which one log alone has records, all alike: most of these have not the right shape."""
    logs = [f"{name} {RECORDS}\n" + f"{record}\n" * RECORDS if name == log else f"{name} 0\n" for name in ("guest", "source", "link", "lane", "pager")]
    return f"postcopy-session 2\npages 1\ncells 1\ninit 0\n{''.join(logs)}end\n"


def measured(measuring, folder, sessions):
    """By the name of each session, what its calls took: name, stack, heap, length."""
    paths = []
    for place, text in enumerate(sessions.values()):
        paths.append(text if text.startswith("/") else f"{folder}/measured-{place}")
        if paths[-1] != text:
            with open(paths[-1], "w", encoding="ascii") as file:
                file.write(text)
    lines = subprocess.run([measuring, *paths], stdout=subprocess.PIPE, check=True, text=True).stdout.splitlines()
    calls = len(lines) // len(paths)
    took = [(call, *map(int, numbers)) for call, *numbers in map(str.split, lines)]
    return {name: took[at * calls:(at + 1) * calls] for at, name in enumerate(sessions)}


def tests_of_claims(measuring, folder, count):
    """`measuring` is bindings/c/tests/measuring.c, built over the library."""
    with open(f"{TOP}/docs/EMBEDDING.md", encoding="utf-8") as file:
        page = file.read()
    stack, = re.findall(r"a call takes less than (\d+) KiB at any size", page)
    plainly, = re.findall(r"up to ([\d.]+) bytes for each byte of text on sessions", page)
    limits, = re.findall(r"up to (\d+) bytes for each byte of such a text, and up to (\d+) where it draws", page)

    known = {path: path for path in case_files("session")}
    plain = {f"a session of {pages} pages": texts().plain_session(16 * pages, pages, 16) for pages in (625, 1250)}
    plain["pages alone"] = texts().plain_session(5000, 5000, 16)
    alike = {f"a log of '{record}'": of_one_log(log, record) for log, record in (
        ("guest", "halt"), ("guest", "r 0 0 0 0"), ("source", "done"), ("link", "up 0"), ("lane", "down 0"), ("pager", "all"))}
    found = measured(measuring, folder, {**known, **plain, **alike})
    most, call, name = max((taken, call, name) for name, calls in found.items() for call, taken, _, _ in calls)
    count(4096 < most < int(stack) << 10, f"{call} takes {most} bytes of stack on {name}, and docs/EMBEDDING.md says less than {stack} KiB")
    for name in (*plain, *alike):
        for call, _, heap, length in found[name]:
            limit = plainly if name in plain else limits[call.startswith("draw")]
            count(0 < heap <= float(limit) * length, f"{call} takes {heap / length:.2f} bytes for each byte of {name}, and docs/EMBEDDING.md says {limit}")
