"""A log that is full: after the halt the source sends the state once more until its log has 1,048,576 records. A further
record is refused, and an event that finds nothing to do is not. Before the halt, sixteen virtual processors fill the guest's log,
or the halt does.
"""
import subprocess

import pytest
from cases import same

pytestmark = pytest.mark.quick

SCRIPT = "postcopy-script 1\npages 1\ncells 1\ninit 0\npivots 1\nwindow 1\ndown -\nup -\nvcpus 1\nvcpu 0 0\nend\n"
SESSION = ("postcopy-session 1\npages 1\ncells 1\ninit 0\nguest 1\nhalt\nsource 1048576\nhalted 0\nstate\n" + "again 1\n" * 1048574
           + "link 0\npager 0\nend\n")


def ticks(count, last):
    """The events of a halt, so many ticks and a last event."""
    return f"postcopy-events 1\nevents {count + 2}\nhalt\n" + "source-tick\n" * count + f"{last}\nend\n"


@pytest.mark.cases(3)
def test_full_log(program, room):
    with open(f"{room}/script", "w", encoding="ascii") as file:
        file.write(SCRIPT)
    for what, count, last, output, status in (("fills", 1048573, "source-tick", SESSION, 0), ("rests on", 1048574, "push", SESSION, 0),
                                              ("overfills", 1048574, "source-tick", "log-full\n", 1)):
        with open(f"{room}/events", "w", encoding="ascii") as file:
            file.write(ticks(count, last))
        ran = subprocess.run([program, "steps", "script", "events"], cwd=room, stdin=subprocess.DEVNULL, stdout=subprocess.PIPE)
        same(f"the log, with what {what} it", (ran.returncode, ran.stdout == output.encode()), (status, True))


@pytest.mark.cases(2)
def test_full_log_of_the_guest(program, room):
    each = 65536
    for last, halt, source in ((each, "", "source 0\n"), (each - 1, "halt\n", f"source 2\nhalted {16 * each - 1}\nstate\n")):
        counts = [*15 * [each], last]
        script = SCRIPT.replace("vcpus 1\nvcpu 0 0\n", "vcpus 16\n" + "".join(f"vcpu {it} 0\n" + it * "r 0 0\n" for it in counts))
        steps, reads = ("".join(it * line.format(vcpu) for vcpu, it in enumerate(counts)) + halt for line in ("guest {}\n", "r {} 0 0 0\n"))
        for name, text in (("script", script), ("events", f"postcopy-events 1\nevents {16 * each}\n{steps}end\n")):
            with open(f"{room}/{name}", "w", encoding="ascii") as file:
                file.write(text)
        ran = subprocess.run([program, "steps", "script", "events"], cwd=room, stdin=subprocess.DEVNULL, stdout=subprocess.PIPE)
        output = f"postcopy-session 1\npages 1\ncells 1\ninit 0\nguest {16 * each}\n{reads}{source}link 0\npager 0\nend\n"
        same(f"the guest's log that is filled, {halt or 'with no halt'}", (ran.returncode, ran.stdout == output.encode()), (0, True))
