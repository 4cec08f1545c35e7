"""QEMUs from other releases of Debian, in the user's cache folder: each with its own loader and its own libraries.

debootstrap resolves and downloads the packages for QEMU. A root has QEMU itself, its libraries and its data, unpacked from them. Only
QEMU runs, nothing is installed, and neither a chroot nor root's rights are needed.
"""
import contextlib
import fcntl
import glob
import os
import re
import shlex
import shutil
import subprocess
import tarfile

from build import PACKAGES
from roots import Missing, cache, make_folder

NAME = "qemu-system-x86_64"
PACKAGE = "qemu-system-x86"
LIBRARIES = "usr/lib/x86_64-linux-gnu"
NEEDED = re.compile(rf"usr/(lib|lib64|share/(qemu|seabios|ipxe|vgabios))/.*|usr/bin/{NAME}")
TRIES = 3  # to download
SUITE = re.compile("[a-z][a-z0-9.-]*")


def top():
    """Returns the folder of the roots."""
    return cache("qemu")


def builds():
    """Returns the folder of what recorders/qemu/build made."""
    return cache("builds")


def qemu_of(root):
    return f"{root}/{NAME}"


def require_tools():
    lacks = [tool for tool in ("debootstrap", "dpkg-deb") if not shutil.which(tool)]
    if lacks:
        raise Missing(f"{', '.join(lacks)} not found. On Debian:\n    apt-get install --no-install-recommends debootstrap dpkg")


def download(suite, folder, mirror, say):
    """Has debootstrap resolve and download the packages that QEMU needs, for a suite. Returns their files.

    It continues with what an earlier try has downloaded, and tries again if a mirror fails for a moment.
    """
    for _ in range(TRIES - 1):
        with contextlib.suppress(Missing):
            return try_download(suite, folder, mirror, say)
    return try_download(suite, folder, mirror, say)


def try_download(suite, folder, mirror, say):
    words = ["debootstrap", "--download-only", "--variant=minbase", f"--include={PACKAGE}", suite, folder, mirror]
    last, count = "debootstrap said nothing", 0
    with subprocess.Popen(words, stdout=subprocess.PIPE, stderr=subprocess.STDOUT, text=True, env=dict(os.environ, LC_ALL="C")) as process:
        for line in process.stdout:
            last = line.strip() or last
            if line.startswith("I: Retrieving "):
                count += 1
                say(f"download: {count}, {line.split()[2]}")
    if process.returncode:
        raise Missing(f"debootstrap of {suite}: {last}")
    return sorted(glob.glob(f"{folder}/var/cache/apt/archives/*.deb"))


def merged(name):
    """Returns a path within a root in which `lib` is `usr/lib`, as in each release since Debian 12."""
    name = os.path.normpath(name.lstrip("./") or ".")
    return f"usr/{name}" if re.match("lib(64)?(/|$)", name) else name


@contextlib.contextmanager
def opened(package):
    """Returns the archive of a package's files, which is read from its start to its end."""
    with subprocess.Popen(["dpkg-deb", "--fsys-tarfile", package], stdout=subprocess.PIPE) as process:
        with tarfile.open(fileobj=process.stdout, mode="r|") as archive:
            yield archive
    if process.returncode:
        raise Missing(f"dpkg-deb cannot unpack {package}")


def unpack(package, root):
    """Unpacks the files of a package that QEMU needs: no special rights, no devices, nothing outside the root."""
    with opened(package) as archive:
        for member in archive:
            member.name = merged(member.name)
            if not NEEDED.fullmatch(member.name) or not (member.isreg() or member.issym() or member.islnk()):
                continue
            if member.issym() and member.linkname.startswith("/"):
                member.linkname = os.path.relpath(merged(member.linkname), os.path.dirname(member.name))
            elif member.islnk():
                member.linkname = merged(member.linkname)
            member.mode = 0o755 if member.mode & 0o111 else 0o644
            archive.extract(member, root)


def loader_of(root):
    for name in ("ld-linux-x86-64.so.2", "ld-*.so"):
        if found := glob.glob(f"{root}/{LIBRARIES}/{name}"):
            return os.path.realpath(found[0])
    raise Missing(f"{root} has no loader")


def write_start(root, place):
    """Writes the program that starts the root's QEMU. `place` is where the root will be."""
    loader = os.path.relpath(loader_of(root), os.path.realpath(root))
    here, libraries = shlex.quote(place), f"{place}/{LIBRARIES}"
    start = qemu_of(root)
    with open(start, "w", encoding="utf-8") as out:
        out.write("#!/bin/sh\n# Starts the QEMU of this folder by its own loader and libraries. Written by recorders/qemu/versions.\n"
                  f"QEMU_MODULE_DIR={shlex.quote(libraries + '/qemu')}\nexport QEMU_MODULE_DIR\n"
                  f"exec {here}/{loader} --library-path {shlex.quote(libraries + ':' + libraries + '/pulseaudio')} "
                  f"{here}/usr/bin/{NAME} -L {here}/usr/share/qemu -L {here}/usr/share/seabios \"$@\"\n")
    os.chmod(start, 0o755)


def make(suite, mirror, say, is_anew=True):
    """Makes the root of a suite, one process at a time. It appears as a whole, or not at all. What another process made meanwhile is taken,
    unless it is to be made anew."""
    if not SUITE.fullmatch(suite):
        raise Missing(f"'{suite}' is no name of a release of Debian")
    root = f"{top()}/{suite}"
    with held(say):
        if is_anew or not os.path.exists(qemu_of(root)):
            make_alone(suite, root, mirror, say)
    return root


@contextlib.contextmanager
def held(say):
    """Keeps other processes from making roots."""
    make_folder(top())
    folder = os.open(top(), os.O_RDONLY | os.O_CLOEXEC)
    try:
        try:
            fcntl.flock(folder, fcntl.LOCK_EX | fcntl.LOCK_NB)
        except BlockingIOError:
            say("wait: another process makes a root")
            fcntl.flock(folder, fcntl.LOCK_EX)
        yield
    finally:
        os.close(folder)


def make_alone(suite, root, mirror, say):
    """Makes the root of a suite, of which no other process makes a part."""
    new, downloads = f"{root}.new", f"{root}.packages"
    for folder in (new, downloads):
        shutil.rmtree(folder, ignore_errors=True)
    try:
        os.makedirs(new)
        packages = download(suite, downloads, mirror, say)
        for number, package in enumerate(packages, 1):
            say(f"unpack: {number} of {len(packages)}, {os.path.basename(package).split('_')[0]}")
            unpack(package, new)
        write_start(new, root)
        shutil.rmtree(root, ignore_errors=True)
        os.rename(new, root)
    except OSError as fault:
        raise Missing(f"the root of {suite} cannot be made: {fault}") from None
    finally:
        for folder in (new, downloads):
            shutil.rmtree(folder, ignore_errors=True)


def found(name):
    """Returns the path of a QEMU: that of a release whose root exists, of a build, of a program in PATH, or the path itself."""
    if "/" in name:
        path = os.path.abspath(name)
    elif SUITE.fullmatch(name) and os.path.exists(qemu_of(f"{top()}/{name}")):
        path = qemu_of(f"{top()}/{name}")
    elif os.path.exists(build := qemu_of(f"{builds()}/{name}")):
        path = build
    else:
        path = shutil.which(name)
    if not path or not os.access(path, os.X_OK) or os.path.isdir(path):
        raise Missing(f"{name} is no program here, no release that recorders/qemu/versions has made a root of, and no build of recorders/qemu/build. On Debian:\n"
                      f"    apt-get install --no-install-recommends {PACKAGES}")
    return path
