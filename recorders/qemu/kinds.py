"""The kinds of migrations, as plans: the guest, and how it is moved."""
import json
from dataclasses import asdict, dataclass, field, replace

from dialect import FRONT, KEPT, PC_RAM

BASE = 0x400000
ENTRIES = 4096  # of a ring of dirty pages
MEMORIES = {
    "one": "one RAM block",
    "numa": "two NUMA nodes: the window is in the second RAM block, and the first is longer",
    "uneven": "two NUMA nodes: the window is in the second RAM block, and the first is shorter",
    "dimm": "a DIMM: the window is in the second RAM block, and the DIMM is the first",
    "virtio-mem": "a device virtio-mem without memory: the window is in the second RAM block, and the device's is the first",
}
TRANSPORTS = {
    "unix": "UNIX sockets",
    "tcp": "TCP, over the loopback address",
    "fd": "sockets that QEMU is handed: one connection, so neither preempt nor multifd",
}
# Capabilities that a recorded migration cannot have, and why.
UNFIT = {
    "release-ram": "the source gives pages up before the recorder has saved its memory at the halt",
    "pause-before-switchover": "the migration would wait to be continued",
    "mapped-ram": "the migration goes to a file",
    "background-snapshot": "the migration goes to a file",
    "x-colo": "the guest runs on both sides",
}


@dataclass
class Plan:
    """How to make one migration. Rates are in bytes per second, `warm` and `after` in accesses of the guest."""
    kind: str = "live"
    pages: int = 256          # of the window
    words: int = 16           # of each page that the guest uses, which are the cells
    ram: int = 32             # MiB
    cpus: int = 1
    writes: int = 4           # of 16 accesses
    pace: int = 0             # how long the guest waits after each access
    flush: bool = True        # whether the guest drops a page's translation before each access
    hot: int = 0              # pages, the first of the window's last quarter, that it alone writes from the bitmap's second synchronization on
    bandwidth: int = 1 << 20  # of pre-copy
    post_bandwidth: int = 500_000
    warm: int = 2000          # before the migration starts
    pre_pages: int = 0        # the switch waits until pre-copy has sent this many pages of the window,
    pre: float = 0.5          # and then this many seconds
    left: int = -1            # or until at most this many bytes are left to send; -1: any number
    is_precopy: bool = False  # there is no switch: pre-copy goes on to its end, without post-copy's capabilities
    after: int = 3000         # at the target, behind the end
    preempt: bool = False
    multifd: int = 0          # separate connections for the pages of pre-copy, which the relay does not read
    kvm: bool = False         # the guest runs on the real processor, not on an emulated one
    dirty_ring: int = 0       # entries of the ring by which KVM tells the pages that each processor dirtied; 0: by a bitmap
    huge: bool = False        # the guest's memory has pages of 2 MiB
    paused: bool = False      # the guest is stopped first, and resumes at the target after the end
    cuts: list = field(default_factory=list)  # the connection is cut after this many pages; -1: after the package
    fails: int = 0            # how many times each recovery fails first, since nobody listens at the new connection,
    broken: int = 0           # and then since the new connections are lost before anything comes over them
    suspended: bool = False   # the guest suspends itself first (ACPI's S3), and is woken at the target after the end
    fault: str = ""
    skip: int = 3             # of the pages that the fault could take
    linger: int = 0           # milliseconds by which a QEMU that ends with an error is delayed
    limit: float = 40.0       # seconds for each part of the migration
    workload: str = ""        # of a Linux guest, whose accesses a plugin records: words of its kernel's command line
    recorded: float = 0.0     # and for how many seconds it is recorded before the migration starts
    run_on: float = 0.0       # and goes on at the target, behind the end
    memory: str = "one"       # the guest's memory, one of MEMORIES
    machine: str = "pc"
    transport: str = "unix"   # one of TRANSPORTS
    further: list = field(default_factory=list)      # capabilities besides those that the plan itself needs
    parameters: dict = field(default_factory=dict)   # of the migration, by name
    base: int = BASE
    source_version: str = KEPT  # of QEMU; whoever makes the migration fills it in
    target_version: str = KEPT

    @property
    def keeps(self):
        """Returns whether the guest is emulated, and keeps a page's translation from one access to the next."""
        return not (self.flush or self.kvm)

    @property
    def accelerator(self):
        """Returns what QEMU runs the guest by, as its option -accel has it."""
        return f"{'kvm' if self.kvm else 'tcg'}{f',dirty-ring-size={self.dirty_ring}' if self.dirty_ring else ''}"

    def capabilities(self):
        """Returns the capabilities that both QEMUs are asked for."""
        own = [] if self.is_precopy else ["postcopy-ram", "postcopy-blocktime", *["postcopy-preempt"] * self.preempt, *["multifd"] * bool(self.multifd)]
        return own + [name for name in self.further if name not in own]

    def not_looked_at(self):
        """Returns what of the migration the recorder does not see."""
        other = [f"the RAM block {FRONT}: only the window, which is in the block {PC_RAM}, is judged"] if self.memory != "one" else []
        return other + ["what pre-copy sent over the connections of multifd"] * ("multifd" in self.capabilities())

    def to_text(self):
        return json.dumps(asdict(self), indent=1)


KINDS = {
    "live": ("the guest runs, and asks for what it needs", {}),
    "left": ("pre-copy leaves pages at the target that need not come again",
             {"pages": 1024, "bandwidth": 5_000_000, "pace": 2000, "post_bandwidth": 1_000_000}),
    "cells": ("512 cells a page: each byte of a page is judged word by word",
              {"pages": 512, "words": 512, "bandwidth": 3_000_000, "post_bandwidth": 1_000_000}),
    "wide": ("8,192 pages of one cell",
             {"pages": 8192, "words": 1, "ram": 64, "bandwidth": 20_000_000, "post_bandwidth": 8_000_000}),
    "paused": ("the guest is stopped before, and started behind the migration",
               {"pages": 512, "paused": True, "post_bandwidth": 1_000_000}),
    "nothing-left": ("the guest is stopped before, and the switch waits until pre-copy has nothing left to send",
                     {"pages": 64, "paused": True, "pre": 0.0, "left": 0}),
    "processors": ("four virtual processors", {"pages": 512, "cpus": 4}),
    "preempt": ("pages that are asked for have a connection of their own: the lane",
                {"pages": 1024, "preempt": True, "post_bandwidth": 1_000_000}),
    "recovery": ("the connection is cut, and the migration goes on over another",
                 {"pages": 512, "post_bandwidth": 1_000_000, "cuts": [200]}),
    "preempt-recovery": ("both connections are cut, and the migration goes on over two others",
                         {"pages": 512, "preempt": True, "post_bandwidth": 1_000_000, "cuts": [200]}),
    "reconnect": ("the connection is cut, and the first two recoveries find nobody who listens",
                  {"pages": 512, "post_bandwidth": 1_000_000, "cuts": [200], "fails": 2}),
    "handshake": ("the connection is cut, and that of the first recovery is lost before the target answers",
                  {"pages": 512, "post_bandwidth": 1_000_000, "cuts": [200], "broken": 1}),
    "suspended": ("the guest suspends itself before, and is woken at the target: QEMU 9.0",
                  {"pages": 512, "suspended": True, "post_bandwidth": 1_000_000}),
    "kvm": ("the guest runs on the processor, where /dev/kvm is",
            {"pages": 64, "kvm": True, "warm": 50, "after": 100, "bandwidth": 200_000, "post_bandwidth": 200_000}),
    "dirty-ring": ("the same, and KVM tells dirty pages by a ring, where it has one: QEMU 6.1",
                   {"pages": 64, "kvm": True, "dirty_ring": ENTRIES, "warm": 50, "after": 100, "bandwidth": 200_000, "post_bandwidth": 200_000}),
    "multifd": ("pre-copy goes over two more connections", {"pages": 1024, "multifd": 2, "post_bandwidth": 1_000_000}),
    "multifd-preempt": ("the same, and pages that are asked for have a connection of their own",
                        {"pages": 1024, "multifd": 2, "preempt": True, "post_bandwidth": 1_000_000}),
    "huge": ("the guest's memory is of pages of 2 MiB, where there are free ones",
             {"pages": 1024, "huge": True, "post_bandwidth": 4_000_000}),
    "lost-write": ("64 pages, which fit the emulator's TLB: QEMU 5.2 and 7.2 lose writes here",
                   {"pages": 64, "words": 8, "flush": False, "pre_pages": 72, "pre": 0.0, "post_bandwidth": 300_000}),
    "hot-pages": ("the guest goes over to writing 32 pages that are not sent yet: QEMU 11.1 loses writes here",
                  {"pages": 512, "words": 8, "flush": False, "hot": 32, "pre_pages": 448, "pre": 0.0}),
}


def plan_of(kind, **changes):
    """Returns the plan of a kind, with changes."""
    plan = replace(Plan(kind=kind, **KINDS[kind][1]), **changes)
    return replace(plan, cuts=list(plan.cuts))


def plan_from_text(text):
    return Plan(**json.loads(text))
