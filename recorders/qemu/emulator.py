"""A QEMU as a program: its version, and what it lacks for a recorded migration."""
import functools
import json
import os
import re
import subprocess

import dialect
import releases
from build import Missing

LONGEST = 60  # seconds for an answer


def free_huge_pages():
    """Returns how many free pages of 2 MiB this machine has."""
    try:
        with open("/sys/kernel/mm/hugepages/hugepages-2048kB/free_hugepages", encoding="ascii") as file:
            return int(file.read())
    except OSError:
        return 0


class Emulator:
    NAME = "qemu-system-x86_64"

    def __init__(self, name=NAME):
        self.path = releases.found(name)
        told = self.ask("-version").stdout
        match = re.search(r"version (\d+\.\d+(\.\d+)?)", told)
        if not match:
            raise Missing(f"{self.path} does not say what version of QEMU it is: {told[:200]!r}")
        self.version_text = match[1]
        self.version = dialect.version_of(match[1])

    def __str__(self):
        return f"QEMU {self.version_text}"

    def ask(self, *words, text="", **environment):
        try:
            done = subprocess.run([self.path, *words], input=text, capture_output=True, text=True, timeout=LONGEST,
                                  env=dict(os.environ, **environment))
        except (OSError, subprocess.TimeoutExpired) as fault:
            raise Missing(f"{self.path} cannot be run: {fault}") from None
        if done.returncode:
            raise Missing(f"{self.path} {' '.join(words)}: status {done.returncode}: {done.stderr.strip()[-300:]}")
        return done

    @functools.cached_property
    def events(self):
        """Returns all events that it can trace."""
        told = self.ask("-trace", "help")  # 5.2 writes them to standard error
        return set((told.stdout or told.stderr).split())

    def trace(self, side):
        """Returns the events that a side must trace. Raises Missing if it lacks one that a moment needs."""
        needed = dialect.events_of(side, self.version)
        if lacks := [event for event in needed if event not in self.events]:
            raise Missing(f"{self} ({self.path}) has no trace event {', '.join(lacks)}: recorders/qemu/dialect.py has to know "
                          "what its version has in place of it")
        return needed + [event for event in dialect.BESIDES[side] if event in self.events and event not in needed]

    def machines(self, name="pc"):
        """Returns the types of machines, and what this one stands for."""
        told = self.ask("-machine", "help").stdout
        alias = re.search(rf"^{re.escape(name)} +.*\(alias of (\S+)\)", told, re.MULTILINE)
        return set(re.findall(r"^(\S+)", told, re.MULTILINE)), alias[1] if alias else name

    def machine_for(self, target, name="pc"):
        """Returns the type of machine for both sides: what the source has for this name, or what the target has if the source is newer."""
        if self.path == target.path:
            if name != "pc" and name not in self.machines(name)[0]:
                raise Missing(f"{self} ({self.path}) has no machine {name}")
            return name
        older, newer = sorted((self, target), key=lambda one: one.version)
        machine = older.machines(name)[1]
        if machine not in newer.machines(name)[0]:
            raise Missing(f"{newer} ({newer.path}) has no machine {machine}, which {older} has for {name}")
        return machine

    def require(self, plan, library):
        """Raises Missing if it cannot make the migrations of a plan, with QEMU's own message if there is one."""
        if plan.huge and (free := free_huge_pages()) < plan.ram:
            raise Missing(f"{plan.ram} free pages of 2 MiB are needed, and there are {free}: left out. As root:\n"
                          f"    sysctl vm.nr_hugepages={plan.ram}")
        if plan.kvm and not os.access("/dev/kvm", os.R_OK | os.W_OK):
            raise Missing("there is no /dev/kvm that this user may open: left out")
        if plan.suspended and self.version < dialect.SUSPENDED_SINCE:
            raise Missing(f"{self} ({self.path}) wakes a suspended guest before it moves it: left out")
        names = plan.capabilities()
        asked = [{"execute": "qmp_capabilities"},
                 {"execute": "migrate-set-capabilities",
                  "arguments": {"capabilities": [{"capability": name, "state": True} for name in names]}},
                 *[{"execute": "migrate-set-parameters", "arguments": plan.parameters}] * bool(plan.parameters)]
        text = "".join(json.dumps(one) + "\n" for one in [*asked, {"execute": "quit"}])
        accelerator = ["-accel", plan.accelerator] if plan.kvm else []
        done = self.ask("-machine", "none", *accelerator, "-nodefaults", "-no-user-config", "-display", "none", "-qmp", "stdio", text=text)
        if plan.dirty_ring and (warned := re.search("dirty ring not available.*", done.stderr)):  # it would take the bitmap
            raise Missing(f"{self} ({self.path}) says of this machine's KVM: {warned[0]}: left out")
        for line in done.stdout.splitlines():
            if refused := json.loads(line).get("error"):
                raise Missing(f"{self} ({self.path}) cannot migrate with {', '.join([*names, *plan.parameters])}: {refused['desc']}")
        said = self.ask("-version", LD_PRELOAD=os.path.abspath(library)).stderr.strip()
        if os.path.abspath(library) in said:
            raise Missing(f"{self} ({self.path}) does not take the preloaded library: {said[:300]}")
