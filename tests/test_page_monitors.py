"""The recorder by page contents: what a source's monitor says, and the XML of a target of libvirt."""
import contextlib
import os
import socket
import sys
import threading
import xml.etree.ElementTree as tree

import pytest

TOP = os.path.dirname(os.path.dirname(os.path.abspath(__file__)))
sys.path[:0] = [f"{TOP}/recorders/pages", f"{TOP}/recorders/qemu", f"{TOP}/recorders"]
import build
import page_source
import page_target

pytestmark = pytest.mark.quick


@pytest.mark.parametrize("states, words", [
    ([("active", True), ("postcopy-active", True), ("postcopy-active", False), ("postcopy-active", False), ("completed", False)], ["halt", "end"]),
    ([("active", True), ("completed", False)], ["end"]),
    ([("active", True), ("device", False), ("failed", True)], ["failed"]),
    ([("postcopy-active", False), ("postcopy-paused", False), ("postcopy-recover", False), ("completed", False)], ["halt", "end"]),
    ([("postcopy-active", False), ("failed", False), ("failed", True)], ["halt", "back"]),
    ([("completed", True), ("none", True), ("active", False)], []),
])
def test_states(states, words):
    found = page_source.States()
    assert [word for state in states if (word := found.word(*state))] == words


LIBVIRT = """event MIGRATION at 1.2 for domain 'guest': {"status":"setup"}
event MIGRATION at 1.3 for domain 'guest': {"status":"active"}
event MIGRATION at 1.4 for domain 'guest': {"status":"postcopy-active"}
event STOP at 1.5 for domain 'guest': <null>
"""


@pytest.mark.parametrize("more, words", [
    ("""event MIGRATION at 1.6 for domain 'guest': {"status":"completed"}\n""", ["halt", "end"]),
    ("event RESUME at 1.6 for domain 'guest': <null>\n", ["halt", "back"]),
    ("", ["halt"]),
])
def test_events_of_libvirt(more, words):
    assert list(page_source.words_of_libvirt((LIBVIRT + more).splitlines())) == words


def test_domain_that_ends():
    assert list(page_source.words_of_libvirt([])) == ["failed"]


DOMAIN = """<domain type='kvm'><name>guest</name><memory unit='MiB'>512</memory>{}<devices/></domain>"""
OLD = "<qemu:commandline xmlns:qemu='http://libvirt.org/schemas/domain/qemu/1.0'><qemu:env name='POSTCOPY_PAGES' value='/old'/><qemu:arg value='-S'/></qemu:commandline>"


@pytest.mark.parametrize("earlier", ["", OLD])
def test_xml(earlier):
    domain = page_target.domain_of(DOMAIN.format(earlier))
    page_target.with_environment(domain, {"POSTCOPY_PAGES": "/new", "LD_PRELOAD": "/new/pages.so"})
    text = page_target.text_of(domain)
    again = tree.fromstring(text)
    found = [(env.get("name"), env.get("value")) for env in again.iter("{http://libvirt.org/schemas/domain/qemu/1.0}env")]
    assert found == [("POSTCOPY_PAGES", "/new"), ("LD_PRELOAD", "/new/pages.so")]
    assert ("qemu:arg" in text) == bool(earlier)
    assert page_target.memory_of_domain(domain) == 512 << 20


def test_no_xml():
    with pytest.raises(build.Missing):
        page_target.domain_of("<network/>")


@pytest.mark.parametrize("words, memory", [(["-m", "512"], 512 << 20), (["-m", "2G"], 2 << 30), (["-m", "size=1024M,slots=2"], 1 << 30), ([], 0)])
def test_memory_of_words(words, memory):
    assert page_target.memory_of_words(["qemu", *words]) == memory


class Answers:
    """A source's monitor, with a capability that is on and states that come one after another."""

    def __init__(self, capability, *states):
        self.capability, self.states, self.is_closed = capability, [*states], False

    def __call__(self, command):
        if command == "query-migrate-capabilities":
            return [{"capability": name, "state": name == self.capability} for name in ("postcopy-ram", "release-ram")]
        status, is_running = self.states[0]
        if command == "query-status":
            self.states.pop(0)
            return {"running": is_running}
        return {"status": status}

    def close(self):
        self.is_closed = True


MOVES = ("none", True), ("active", True), ("postcopy-active", False), ("completed", False)


def test_words_of_a_monitor():
    monitor = Answers("postcopy-ram", *MOVES)
    assert list(page_source.words_of_qmp(monitor)) == ["halt", "end"]
    assert monitor.is_closed


@pytest.mark.parametrize("states", [MOVES, MOVES[:2] + MOVES[3:]], ids=["post-copy", "pre-copy"])
def test_source_that_gives_pages_up(states):
    """What it has sent is zeros when it is hashed: nothing is recorded, whether there was a switch or not."""
    monitor = Answers("release-ram", *states)
    with pytest.raises(page_source.Lost, match="release-ram: the source gives pages up before"):
        list(page_source.words_of_qmp(monitor))
    assert monitor.is_closed


def answer(listener):
    """Answers as a QEMU's monitor, until the listener is closed: greets each that connects, one after another, and says that the guest runs."""
    while listener.fileno() >= 0:
        with contextlib.suppress(OSError), listener.accept()[0] as connection:  # who only asks whose socket it is, goes
            connection.sendall(b'{"QMP": {}}\n')
            while connection.recv(1 << 16):
                connection.sendall(b'{"return": {"running": true}}\n')


def test_monitor_by_its_socket(tmp_path):
    """The words have the name of the socket alone."""
    with socket.socket(socket.AF_UNIX) as listener:
        listener.bind(f"{tmp_path}/qmp")
        listener.listen()
        threading.Thread(target=answer, args=(listener,), daemon=True).start()
        monitor = page_source.Monitor(f"{tmp_path}/qmp")
        assert (monitor.process, monitor("query-status")) == (os.getpid(), {"running": True})
        monitor.close()
