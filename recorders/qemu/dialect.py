"""What differs between versions of QEMU: moments in the trace, commands of the stream, and names of states.

A moment of a migration is a line of the trace. `halt`: the guest has stopped at `vm_state_notify running 0`; at `runstate_set` the
processors may still run. `ready`: memory is guarded `after uffd`; pages are taken before `loadvm_postcopy_handle_listen` returns.
Placements are lines of the preloaded library, because QEMU's own `postcopy_place_page` comes after the wake. A version is (major,
minor) here. What has no version is the same in all that were tried, 5.2 to 11.1.
"""
import re
from dataclasses import dataclass

FIRST = (0, 0)
PC_RAM = "pc.ram"  # the guest's memory, in all versions
FRONT = "front"    # a block of memory that comes before it, in plans that have one
KEPT = "7.2"  # the version of recordings that have none
STAMP = re.compile(r"^\d+@\d+\.\d+:")  # before a line of the trace, in versions before STAMPED_BEFORE
STAMPED_BEFORE = (7, 0)

# Commands of the stream, by their numbers. A version also has those of earlier versions.
COMMANDS = {1: "open-return-path", 2: "ping", 3: "advise", 4: "listen", 5: "run", 6: "discard", 7: "package",
            8: "colo", 9: "resume", 10: "recv-bitmap",
            11: "switchover-start"}  # 10.0

# The states of a migration, from `query-migrate`.
ENDS = ("completed", "failed", "cancelled", "postcopy-paused")
IN_POSTCOPY = ("postcopy-active", "postcopy-recover", "postcopy-recover-setup",  # 10.0
               "postcopy-device")  # 11.1: the target loads the package
IN_RECOVERY = ("postcopy-recover", "postcopy-recover-setup")
SUSPENDED_SINCE = (9, 0)  # a guest that is suspended is moved so; before, QEMU wakes it first
STOPS, RUNS = "vm_state_notify running 0 ", "vm_state_notify running 1 "  # what the lines of a guest's halt and start begin with
LIBRARY = "uffd"  # what the lines of the preloaded library begin with


@dataclass(frozen=True)
class Form:
    """A form of a moment's line, in the versions from `since` on, up to `before`, which is not included."""
    moment: str
    form: str
    since: tuple = FIRST
    before: tuple = (1000, 0)

    @property
    def event(self):
        return self.form.split(" ")[0].rstrip("$")

    def is_of(self, version):
        return self.since <= version < self.before


SOURCE = (
    Form("halt", STOPS),
    Form("start again", RUNS),
    Form("page", r"ram_save_page (?P<block>.*): offset: (?P<offset>\w+) host: "),
    Form("ask", r"migrate_handle_rp_req_pages "),
    Form("shut", r"source_return_path_thread_shut"),
    Form("pages over a new connection", r"migrate_set_state new state postcopy-recover$"),
    Form("asks over a new connection", r"postcopy_pause_return_path_continued"),
)
TARGET = (
    Form("state", r"loadvm_handle_cmd_packaged_received "),
    Form("ready", r"postcopy_ram_enable_notify", before=(7, 0)),
    Form("ready", r"loadvm_postcopy_handle_listen after uffd", since=(7, 0)),
    Form("resume", RUNS),
    Form("taken", r"ram_load_postcopy_loop @(?P<offset>\w+) (?P<flags>\w+)$", before=(7, 1)),
    Form("taken", r"ram_load_postcopy_loop chan=(?P<channel>\d+) addr=(?P<offset>\w+) flags=(?P<flags>\w+)", since=(7, 1)),
    Form("message", r"migrate_send_rp_message (?P<kind>\d+): "),
    Form("messages over a new connection", r"migrate_set_state new state postcopy-recover$"),
    Form("pages over a new connection", r"postcopy_pause_incoming_continued"),
    Form("pages over a new lane", r"postcopy_pause_fast_load_continued", since=(7, 1)),
    Form("guard", rf"{LIBRARY} guard "),
    Form("have", rf"{LIBRARY} have (?P<page>\d+) (?P<place>\d+)"),
    Form("fault", rf"{LIBRARY} fault (?P<page>\d+) (?P<thread>\d+)"),
    Form("miss", rf"{LIBRARY} miss (?P<number>\d+)"),  # of a guest whose accesses a plugin records: it belongs to the last fault
    Form("place", rf"{LIBRARY} place (?P<page>\d+) (?P<place>\d+)"),
    Form("zero", rf"{LIBRARY} zero (?P<page>\d+)"),
    Form("refused", rf"{LIBRARY} refused (?P<page>\d+) (?P<error>\d+)"),
)
# Further trace events, for people who read a recording. A version that does not have all of them is recorded anyway.
BESIDES = {
    "source": ("runstate_set", "postcopy_start", "migrate_set_state", "postcopy_pause_return_path",
               "migration_completion_postcopy_end_after_complete", "migration_return_path_end_before",
               "await_return_path_close_on_source_joining"),
    "target": ("runstate_set", "loadvm_handle_cmd_packaged", "loadvm_postcopy_handle_listen", "loadvm_postcopy_handle_run_bh",
               "postcopy_place_page", "postcopy_place_page_zero", "migrate_set_state", "postcopy_ram_fault_thread_request",
               "postcopy_ram_fault_thread_quit"),
}
FORMS = {"source": SOURCE, "target": TARGET}
# The version of the interface that a plugin asks for, from a version of QEMU on. recorders/qemu/plugin.h has the differences.
INTERFACES = (((7, 2), 1), ((10, 0), 4), ((11, 0), 7))


def version_of(text):
    """Returns a version as (major, minor), from its text."""
    return tuple(int(part) for part in text.split(".")[:2])


def interface_of(version):
    """Returns the version of the plugin interface, or None if the version of QEMU has none that is known."""
    return next((interface for since, interface in reversed(INTERFACES) if since <= version), None)


def events_of(side, version):
    """Returns the trace events that the moments of a side need."""
    return sorted({form.event for form in FORMS[side] if form.is_of(version) and form.event != LIBRARY})


class Moments:
    """Finds the moments in the lines of a side's trace."""

    def __init__(self, side, version=KEPT):
        version = version_of(version)
        self.is_stamped = version < STAMPED_BEFORE
        self.words = {}
        for form in FORMS[side]:
            if form.is_of(version):
                self.words.setdefault(form.event, []).append((form.moment, re.compile(form.form)))

    def of(self, line):
        """Yields each moment of the line, with its fields."""
        if self.is_stamped:
            line = STAMP.sub("", line)
        for moment, form in self.words.get(line.split(" ", 1)[0], ()):
            if match := form.match(line):
                yield moment, match.groupdict()
