"""A Linux to boot: Debian's kernel and busybox from its packages, in the user's cache folder, and an initramfs that is made here."""
import contextlib
import fcntl
import glob
import gzip
import os
import re
import shutil
import stat
import subprocess
import tempfile

import build
from files import naming, write
from releases import opened
from roots import Missing, cache

HERE = f"{os.path.dirname(os.path.abspath(__file__))}/linux_guest"
META = "linux-image-cloud-amd64"  # which depends on the newest kernel
BUSYBOX = "busybox-static"
TOOLS = ("apt-get", "apt-cache", "dpkg-deb")
SECONDS = 600  # to download a package
TRIES = 3
BALLOON = "virtio_ring", "virtio", "virtio_pci_legacy_dev", "virtio_pci_modern_dev", "virtio_pci", "virtio_balloon"  # each needs some before it
OF_KERNEL = {"vmlinuz": re.compile(r"\./boot/vmlinuz-[^/]*"), **{f"{name}.ko": re.compile(rf"\./(usr/)?lib/modules/.*/{name}\.ko") for name in BALLOON}}
OF_BUSYBOX = {"busybox": re.compile(r"\./(usr/)?bin/busybox")}


def top():
    return cache("debian")


def require_tools():
    lacks = [tool for tool in TOOLS if not shutil.which(tool)]
    if lacks:
        raise Missing(f"{', '.join(lacks)} not found: apt downloads the kernel, on Debian. Elsewhere name one with --kernel and --initrd")


def ask(*words, folder="."):
    try:
        done = subprocess.run(words, cwd=folder, capture_output=True, text=True, timeout=SECONDS, env=dict(os.environ, LC_ALL="C"))
    except (OSError, subprocess.TimeoutExpired) as fault:
        raise Missing(f"{' '.join(words)}: {fault}") from None
    if done.returncode:
        raise Missing(f"{' '.join(words)}: {(done.stderr.strip().splitlines() or ['it said nothing'])[-1]}\n"
                      "As root: apt-get update")
    return done.stdout


def kernel_package():
    """Returns the package of the newest kernel that apt knows."""
    told = ask("apt-cache", "show", "--no-all-versions", META)
    match = re.search(r"^Depends: (linux-image-\S+)", told, re.MULTILINE)
    if not match:
        raise Missing(f"{META} depends on no kernel")
    return match[1]


def download(package, folder):
    """Downloads a package, and returns its file. Tries again if a mirror refuses it for a moment."""
    for _ in range(TRIES - 1):
        with contextlib.suppress(Missing):
            ask("apt-get", "download", "-q", package, folder=folder)
            break
    else:
        ask("apt-get", "download", "-q", package, folder=folder)
    return glob.glob(f"{glob.escape(folder)}/{package}_*.deb")[0]


def take_out(package, files, folder):
    """Extracts files from a package: for each, its name in the folder, and what matches its path."""
    with opened(package) as archive:
        for member in archive:
            for name in (name for name, path in files.items() if path.fullmatch(member.name) and member.isreg()):
                with naming(f"{folder}/{name}"), open(f"{folder}/{name}", "wb") as out:
                    shutil.copyfileobj(archive.extractfile(member), out)
    if lacks := [name for name in files if not os.path.exists(f"{folder}/{name}")]:
        raise Missing(f"{os.path.basename(package)} has no {lacks[0]}")


def get(say):
    """Returns where the kernel, modules of it and busybox are. Downloads them if they are missing, all or none."""
    folder = top()
    os.makedirs(os.path.dirname(folder), exist_ok=True)
    with open(f"{folder}.lock", "w", encoding="ascii") as lock:
        fcntl.flock(lock, fcntl.LOCK_EX)
        if os.path.isdir(folder):
            return folder
        require_tools()
        shutil.rmtree(f"{folder}.new", ignore_errors=True)
        os.makedirs(f"{folder}.new")
        with tempfile.TemporaryDirectory() as room:
            os.chmod(room, 0o755)
            for package, files in ((kernel_package(), OF_KERNEL), (BUSYBOX, OF_BUSYBOX)):
                say(f"download: {package}")
                file = download(package, room)
                say(f"unpack: {os.path.basename(file)}, {os.path.getsize(file) >> 10} KiB")
                take_out(file, files, f"{folder}.new")
                write(f"{folder}.new/packages", f"{os.path.basename(file)}\n", "a")
        os.rename(f"{folder}.new", folder)
    return folder


# The initramfs: an archive of the form `newc`.

def entry(number, name, mode, data=b""):
    fields = (number, mode, 0, 0, 1, 0, len(data), 0, 0, 0, 0, len(name) + 1, 0)
    head = b"070701" + b"".join(b"%08X" % field for field in fields) + name.encode() + b"\0"
    return head + bytes(-len(head) % 4) + data + bytes(-len(data) % 4)


def initramfs(files):
    """Returns the bytes of an initramfs with these files: the mode and the contents of each, by name. The same files give the same bytes."""
    entries = [entry(number, name, mode, data) for number, (name, (mode, data)) in enumerate(sorted(files.items()), 1)]
    return gzip.compress(b"".join([*entries, entry(0, "TRAILER!!!", 0)]), mtime=0)


def read(path):
    with open(path, "rb") as file:
        return file.read()


def build_initramfs(busybox, path, modules=()):
    """Makes the initramfs from busybox, the workload, the first process, and modules of the kernel in the order in which that process loads them."""
    program, folder = stat.S_IFREG | 0o755, (stat.S_IFDIR | 0o755, b"")
    numbered = {f"module-{number}.ko": (program, read(f"{os.path.dirname(busybox)}/{name}.ko")) for number, name in enumerate(modules)}
    with naming(path), open(path, "wb") as out:
        out.write(initramfs({
            "bin": folder, "dev": folder, "bin/busybox": (program, read(busybox)), "bin/sh": (stat.S_IFLNK | 0o777, b"busybox"),
            "init": (program, read(f"{HERE}/init")), "work": (program, read(build.build_work())), **numbered}))
