"""Commands on a fresh Debian without network, in a copy of a checkout there. What they write stays in memory, and is gone with them.

    fresh_machine.py ROOT CHECKOUT USER COMMAND ..

ROOT is a root of recorders/roots.py, and USER the number of a user. Each command's output is written, with its status behind it, between
bytes of zero. In the place of apt-get stands a script that writes its words to /asked.
"""
import ctypes
import fcntl
import os
import shutil
import socket
import struct
import subprocess
import sys

TOP = os.path.dirname(os.path.dirname(os.path.abspath(__file__)))
sys.path.insert(0, f"{TOP}/recorders")
import roots

CLONE_NEWNET = 0x40000000
SIOCSIFFLAGS, IFF_UP, IFF_LOOPBACK = 0x8914, 1, 8
APT_GET = '#!/bin/sh\necho "apt-get $*" >> /asked\nexit 100\n'
EACH = r'for it; do bash -c "$it" 2>&1; printf "\0%d\0" $?; done'


def enter(tree):
    """Gives this process a network with nothing but itself, and the machine."""
    roots.libc("unshare", CLONE_NEWNET)
    with socket.socket() as any_socket:
        fcntl.ioctl(any_socket, SIOCSIFFLAGS, struct.pack("16sH22x", b"lo", IFF_UP | IFF_LOOPBACK))
    roots.unshare_mounts()
    room = f"{tree}/mnt"
    roots.mount("room", room, "tmpfs", 0)
    for name in ("written", "work", "machine"):
        os.mkdir(f"{room}/{name}")
    options = f"lowerdir={tree},upperdir={room}/written,workdir={room}/work"
    roots.libc("mount", b"machine", os.fsencode(f"{room}/machine"), b"overlay", ctypes.c_ulong(0), os.fsencode(options))
    for name in ("/proc", "/sys", "/dev"):
        roots.bind(name, f"{room}/machine{name}")
    return f"{room}/machine"


def main(tree, checkout, user, *commands):
    machine, user = enter(tree), int(user)
    place, home = "/opt/tingaro", "/opt/home"
    shutil.copytree(checkout, f"{machine}{place}", symlinks=True)
    os.mkdir(f"{machine}{home}")
    with open(f"{machine}/usr/local/bin/apt-get", "w", encoding="ascii") as file:
        file.write(APT_GET)
    os.chmod(file.name, 0o755)
    open(f"{machine}/asked", "w", encoding="ascii").close()
    os.chmod(f"{machine}/asked", 0o666)
    subprocess.run(["chown", "-R", f"{user}:{user}", f"{machine}{place}", f"{machine}{home}"], check=True)
    os.chroot(machine)
    os.chdir(place)
    os.setgroups([])
    os.setgid(user)
    os.setuid(user)
    kept = {name: value for name, value in os.environ.items() if name == "PYTEST_XDIST_AUTO_NUM_WORKERS"}
    path = "/usr/local/sbin:/usr/local/bin:/usr/sbin:/usr/bin:/sbin:/bin"
    os.execve("/bin/bash", ["bash", "-c", EACH, "bash", *commands], {"PATH": path, "HOME": home, **kept})


if __name__ == "__main__":
    main(*sys.argv[1:])
