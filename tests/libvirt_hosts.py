"""Migrations by libvirt between two hosts, recorded by the lines of docs/SYSTEMS.md: without a fault, and with some put in."""
import os
import re
import shutil
import subprocess
import sys
import time

import hosts
from hosts import TOP, Host, Trials, put, run, say, text_of, wait_until

sys.path[:0] = [f"{TOP}/recorders/qemu", f"{TOP}/recorders"]
import build  # noqa: E402
import debian  # noqa: E402
from kinds import Plan  # noqa: E402
from linux_run import BOOTED, WORDS  # noqa: E402
from relay import Relay, Window  # noqa: E402

PACKAGES = {
    "libvirtd": "libvirt-daemon-system", "virsh": "libvirt-clients", "virtlogd": "libvirt-daemon-system", "qemu-system-x86_64": "qemu-system-x86", "gcc": "gcc,libc6-dev", "ld": "binutils",
    "openssl": "openssl", "ip": "iproute2", "unshare": "util-linux", "nsenter": "util-linux", "setpriv": "util-linux",
}
NAMES = "a", "b"
MIB = 256  # of the guest
RELAY = "10.77.0.1"
CONNECTION, NETWORK = "connection", "network"  # what may be lost
USERFAULTFD = "/proc/sys/vm/unprivileged_userfaultfd"

# The first process of a host, with folders of libvirt that are its own.
HOST = f"""{hosts.MACHINE}
for folder in /etc/libvirt /var/lib/libvirt /var/cache/libvirt; do
    mount -t tmpfs own "$folder"
done
if [ -e /dev/kvm ]; then
    mknod -m 666 "$room/$name/kvm" c 10 232
    mount --bind "$room/$name/kvm" /dev/kvm
fi
mkdir -p /var/log/libvirt/qemu
cat > /etc/libvirt/libvirtd.conf << END
listen_tls = 0
listen_tcp = 1
auth_tcp = "none"
host_uuid = "$(cat /proc/sys/kernel/random/uuid)"
END
cat > /etc/libvirt/qemu.conf << END
security_driver = "none"
cgroup_controllers = []
migrate_tls_x509_cert_dir = "$room/pki"
END
virtlogd -d
libvirtd --listen -d
sleep infinity & wait
"""
DOMAIN = """<domain type='{kind}'>
  <name>guest</name>
  <memory unit='MiB'>{mib}</memory>
  <vcpu>2</vcpu>
  <os><type arch='x86_64' machine='pc'>hvm</type>{start}</os>
  <features><acpi/></features>
  <devices>
    <emulator>/usr/bin/qemu-system-x86_64</emulator>
    <serial type='file'><source path='{room}/store/console' append='on'/></serial>
    <video><model type='vga'/></video>
    <memballoon model='virtio'/>
  </devices>
</domain>
"""
LINUX = "<kernel>{room}/store/vmlinuz</kernel><initrd>{room}/store/initrd</initrd><cmdline>" + WORDS + " work=2000:200</cmdline>"
ROM = "<loader type='rom'>{room}/store/rom</loader>"


def lines_of_page():
    """Returns the lines of the page for a domain of libvirt, by what they do."""
    with open(f"{TOP}/docs/SYSTEMS.md", encoding="utf-8") as file:
        section = file.read().split("\n### Two hosts, with libvirt\n")[1].split("\n### ")[0]
    found = [text.strip() for text in re.findall(r"^ *```(?:sh|console)\n *(?:\$ )?(.*?)^ *```$", section, re.M | re.S)]
    *found, precopy = found
    names = "key", "xml", "source", "migrate", "audit"
    of_precopy = "suspend", "stopped", "resume"
    if len(found) != len(names) or len(precopy.splitlines()) != len(of_precopy):
        sys.exit(f"{hosts.NAME}: docs/SYSTEMS.md has other lines for libvirt than {', '.join(names + of_precopy)}")
    return dict(zip(names + of_precopy, [*found, *precopy.splitlines()]))


def fetch():
    """Gets what the hosts cannot: they have no network but their own."""
    debian.get(say)


def make_store(room):
    """What both hosts have: the guests, and the certificates."""
    for folder in "store", "pki":
        os.mkdir(f"{room}/{folder}")
    os.chmod(f"{room}/store", 0o777)
    linux = debian.get(say)
    shutil.copy(f"{linux}/vmlinuz", f"{room}/store/vmlinuz")
    debian.build_initramfs(f"{linux}/busybox", f"{room}/store/initrd")
    build.rom_for(Plan(pages=1024), build.build()[0], f"{room}/store/rom")
    certificate = "openssl", "req", "-x509", "-newkey", "rsa:2048", "-nodes"
    run(*certificate, "-subj", "/CN=authority", "-keyout", f"{room}/pki/ca-key.pem", "-out", f"{room}/pki/ca-cert.pem", stderr=subprocess.DEVNULL)
    names = ",".join([*(f"DNS:{name}" for name in NAMES), *(f"IP:10.77.{at}.2" for at in (1, 2))])
    run(*certificate, "-subj", "/CN=hosts", "-addext", f"subjectAltName={names}", "-addext", "basicConstraints=critical,CA:FALSE", "-CA", f"{room}/pki/ca-cert.pem",
        "-CAkey", f"{room}/pki/ca-key.pem", "-keyout", f"{room}/pki/server-key.pem", "-out", f"{room}/pki/server-cert.pem", stderr=subprocess.DEVNULL)
    for what in "key", "cert":
        shutil.copy(f"{room}/pki/server-{what}.pem", f"{room}/pki/client-{what}.pem")
        os.chmod(f"{room}/pki/server-{what}.pem", 0o644)
        os.chmod(f"{room}/pki/client-{what}.pem", 0o644)


class Migrations(Trials):
    def __init__(self, room):
        super().__init__()
        self.room, self.lines, self.made = room, lines_of_page(), 0
        self.hosts = {name: Host(room, at, name, HOST) for at, name in enumerate(NAMES, 1)}
        self.relay = None

    def start_hosts(self):
        for host in self.hosts.values():
            host.start()
        for host in self.hosts.values():
            wait_until(f"a libvirtd at {host.name}", lambda host=host: self.virsh(host, "list")[0] == 0)

    def on(self, host, *words):
        return subprocess.run([*host.inside(), *words], stdin=subprocess.DEVNULL, stdout=subprocess.PIPE, stderr=subprocess.STDOUT, text=True)

    def virsh(self, host, *words):
        done = self.on(host, "virsh", *words)
        return done.returncode, done.stdout

    def begin(self, start, kind="qemu"):
        """Starts a guest at the first host, and ends the one before it."""
        console = f"{self.room}/store/console"
        for host in self.hosts.values():
            self.virsh(host, "destroy", "guest")
        put(console, "", 0o666)
        put(f"{self.room}/domain.xml", DOMAIN.format(kind=kind, mib=MIB, room=self.room, start=start.format(room=self.room)))
        status, said = self.virsh(self.hosts["a"], "create", f"{self.room}/domain.xml")
        if status:
            sys.exit(f"{hosts.NAME}: the guest does not start: {said}")
        if start == LINUX:
            wait_until("a guest that has booted", lambda: BOOTED in text_of(console), 300)
        time.sleep(2)

    def migrate(self, name, *words, here="a", there="b", fault="", lost="", is_precopy=False):
        """Records a migration by the page's lines, with these words of `virsh migrate`, and has it judged. Its connection may be `lost`, or the target's
        network for a while, and then it is resumed. Returns the status of virsh, that of the audit, and what the audit says."""
        began, source, target = time.monotonic(), self.hosts[here], self.hosts[there]
        at = f"{self.room}/{name}"
        os.mkdir(at)
        words += self.way(name, target, fault) if fault or lost == CONNECTION else ()
        words += ("--postcopy-bandwidth 1",) if lost else ()
        os.symlink(f"{TOP}/recorders", f"{at}/recorders")

        def line(host, of, *further):
            text = self.lines[of].replace("ssh://SOURCE", f"tcp://{here}").replace("ssh://TARGET", f"tcp://{there}").replace("/var/tmp/", f"{at}/")
            text = text.replace("--postcopy-after-precopy", " ".join(words + further))
            said = open(f"{at}/{of}{''.join(further)}.said", "w", encoding="ascii")
            return subprocess.Popen([*host.inside(), "bash", "-c", f"cd {at}; {text}"], stdin=subprocess.DEVNULL, stdout=said, stderr=said)

        line(source, "key").wait()
        if not is_precopy:
            line(target, "xml").wait()
            self.virsh(source, "migrate-setmaxdowntime", "guest", "1")
        watching = line(source, "source")
        wait_until("an observer that is ready", lambda: "ready" in text_of(f"{at}/source.said"), 300)
        migrating = line(source, "suspend" if is_precopy else "migrate")
        while not is_precopy and "--postcopy-after-precopy" not in words and migrating.poll() is None and self.virsh(source, "migrate-postcopy", "guest")[0]:
            time.sleep(0.5)
        if lost:
            self.lose(lost, source, target, migrating)
        status = migrating.wait(100)
        if lost:
            self.tell_cut(name, status, source, target)
            if self.relay:
                self.relay.recover(self.relay.target)
            status = line(source, "migrate", "--postcopy-resume").wait(100)
        watching.wait(100)
        for of in ("stopped", "resume") if is_precopy else ():
            line(target, of).wait()
        judged = line(target, "audit").wait()
        if self.relay:
            self.relay.end()
            self.relay = None
        told = text_of(f"{at}/audit.said").splitlines()
        say(f"{name}: virsh {status}, {told[0]}, {time.monotonic() - began:.0f} s")
        return status, judged, told

    def lose(self, what, source, target, migrating):
        """Once the guest runs at the target, cuts the connection; or cuts the target's wire, and has libvirt at the source give the migration up. The
        wire is mended once virsh has ended, by its keepalive after half a minute; only then the target's QEMU can hear that the connection is closed."""
        wait_until("a guest that runs at the target", lambda: self.virsh(target, "domstate", "guest")[1].startswith("running"))
        if what == CONNECTION:
            with self.relay.lock:
                self.relay.cut()
            return
        run("ip", "-n", target.name, "link", "set", "eth0", "down")
        time.sleep(2)
        self.same("domjobabort --postcopy", self.virsh(source, "domjobabort", "guest", "--postcopy")[0], 0)
        migrating.wait(100)
        run("ip", "-n", target.name, "link", "set", "eth0", "up")
        run("ip", "-n", target.name, "route", "add", "default", "via", f"10.77.{target.number}.1")
        wait_until("a post-copy that has failed at the target", lambda: "post-copy failed" in self.virsh(target, "domstate", "guest", "--reason")[1], 150)

    def tell_cut(self, name, status, source, target):
        """Tells what virsh says of a migration that was cut, and how libvirt has the domain on both hosts."""
        said = text_of(f"{self.room}/{name}/migrate.said").strip()
        states = [self.virsh(host, "domstate", "guest", "--reason")[1].strip() for host in (source, target)]
        say(f"  cut: virsh {status}, {said.splitlines()[-1] if said else 'silent'}; {states[0]} at the source, and {states[1]} at the target")

    def way(self, name, target, fault):
        """Returns the words for a way over a relay, which may put a fault in."""
        self.made += 1
        port = 49200 + self.made
        self.relay = Relay(f"{self.room}/{name}", None, Window(0, MIB << 8), (target.address, port), fault, 3, path=(RELAY, port))
        return "--migrateuri", f"tcp:{RELAY}:{port}", "--listen-address", target.address

    def put_in(self, name):
        return [int(page) for line in text_of(f"{self.room}/{name}/relay.log").splitlines() if line.startswith("fault ") for page in line.split()[2:]]

    def make(self):
        self.begin(ROM)
        self.same("clean", self.migrate("first", "--bandwidth 30")[:2], (0, 0))
        self.same("clean on the way back, with the XML that the domain has since", self.migrate("back", "--bandwidth 30", here="b", there="a")[:2], (0, 0))
        self.same("clean by pre-copy alone", self.migrate("precopy", here="a", there="b", is_precopy=True)[:2], (0, 0))
        self.same("the guest goes on", self.virsh(self.hosts["b"], "domstate", "guest")[1].strip(), "running")
        self.begin(ROM)
        self.same("clean by TLS", self.migrate("tls", "--tls", "--bandwidth 30")[:2], (0, 0))
        for fault, reason in ("flip", "altered"), ("swap", "altered"), ("drop", "it never came"):
            self.begin(ROM)
            status, judged, told = self.migrate(fault, "--bandwidth 30", fault=fault)
            found = [match.groups() for it in told if (match := re.fullmatch(r"  page (\d+), .*: (.*)", it))]
            self.same(f"what virsh says, and the pages {self.put_in(fault)}", (status, judged, found), (0, 1, [(str(page), reason) for page in sorted(self.put_in(fault))]))
        self.begin(ROM)
        self.same("clean after a cut and a recovery", self.migrate("cut", "--bandwidth 30", lost=CONNECTION)[:2], (0, 0))
        self.begin(ROM)
        self.same("clean after the target's host was lost for a while", self.migrate("outage", "--bandwidth 30", lost=NETWORK)[:2], (0, 0))
        self.begin(ROM)
        self.same("clean over a UNIX socket, where a tunnel of one's own may be", self.migrate("unix", f"--bandwidth 30 --migrateuri unix://{self.room}/store/way")[:2], (0, 0))
        self.begin(ROM)
        status, said = self.virsh(self.hosts["a"], "migrate", "--live", "--postcopy", "--p2p", "--tunnelled", "guest", "qemu+tcp://b/system")
        say(f"  libvirt's own tunnel: {said.strip().splitlines()[-1]}")
        self.same("libvirt has no tunnel for post-copy", (status, "unnel" in said), (1, True))
        status, judged, told = self.migrate("parallel", "--parallel --bandwidth 30")
        is_there = self.virsh(self.hosts["b"], "domstate", "guest")[1].startswith("running")
        say(f"  after --parallel the guest is {'there' if is_there else 'gone: this QEMU cannot'}")
        self.same("clean by --parallel, where QEMU can", not is_there or (status, judged) == (0, 0), True)
        self.begin(LINUX)
        status, judged, told = self.migrate("after-precopy", "--postcopy-after-precopy", "--bandwidth 100")
        time.sleep(5)
        wrong = "WRONG" in text_of(f"{self.room}/store/console")
        say(f"  the guest itself finds {'wrong' if wrong else 'right'} what it has written")
        self.same("what the guest finds wrong is told", not wrong or judged == 1, True)
        if os.path.exists("/dev/kvm"):
            self.begin(ROM, "kvm")
            if (stands := self.virsh(self.hosts["a"], "domstate", "guest", "--reason")[1].strip()) != "running (booted)":
                say(f"left out, KVM: this machine's cannot run the test guest, which is {stands}")
                return
            self.same("clean by KVM", self.migrate("kvm", "--bandwidth 5")[:2], (0, 0))


def inside(room):
    """All of it, inside the namespaces. Gives the status."""
    make_store(room)
    hosts.start_machine(room, NAMES)
    trials, before = Migrations(room), text_of(USERFAULTFD)
    run("sysctl", "-q", "vm.unprivileged_userfaultfd=1")

    def make():
        trials.start_hosts()
        trials.make()

    try:
        return trials.status(make, f"{room}/*/said", f"{room}/*/*.said", f"{room}/*/log/libvirt/qemu/*.log")
    finally:
        run("sysctl", "-q", f"vm.unprivileged_userfaultfd={before.strip()}")
