"""Builds the C parts of the recorder: the test guest's ROM, and the library that is preloaded into QEMU."""
import ctypes
import fcntl
import os
import platform
import shutil
import struct
import subprocess

from files import naming
from roots import Missing, built_in, make_folder

HERE = os.path.dirname(os.path.abspath(__file__))
OUT = built_in(HERE)
ROM_LENGTH = 65536
PACKAGES = "qemu-system-x86 binutils libc6-dev gcc"
USERFAULTFD = {"x86_64": 323, "aarch64": 282}  # the system call's number
TOOLS = ("gcc", "ld", "objcopy")

GUEST_FLAGS = ("-m32", "-O2", "-Wall", "-Wextra", "-ffreestanding", "-Wno-array-bounds", "-fno-pic", "-fno-pie",
               "-fno-stack-protector", "-mgeneral-regs-only", "-fno-asynchronous-unwind-tables", "-fcf-protection=none")


def can_guard_memory():
    """Returns whether a process may guard its memory with userfaultfd, also against the kernel's own accesses."""
    number = USERFAULTFD.get(platform.machine())
    if number is None:
        return False
    descriptor = ctypes.CDLL(None, use_errno=True).syscall(number, os.O_CLOEXEC | os.O_NONBLOCK)
    if descriptor < 0:
        return False
    os.close(descriptor)
    return True


def require_tools():
    """Raises Missing if this machine cannot record a migration."""
    lacks = [tool for tool in TOOLS if not shutil.which(tool)]
    if lacks:
        raise Missing(f"{', '.join(lacks)} not found. On Debian:\n"
                      f"    apt-get install --no-install-recommends {PACKAGES}")
    if not can_guard_memory():
        raise Missing("userfaultfd cannot be used here. It needs Linux with CONFIG_USERFAULTFD, a container that does not\n"
                      "forbid the call, and root or\n"
                      "    sysctl vm.unprivileged_userfaultfd=1")


def run(*words):
    done = subprocess.run(words, capture_output=True, text=True)
    if done.returncode:
        raise Missing(f"{' '.join(words)}\n{done.stderr}")


def is_stale(built, *sources):
    return not os.path.exists(built) or any(os.path.getmtime(built) < os.path.getmtime(source) for source in sources)


def build_rom(rom):
    objects = []
    for name in ("start.S", "walk.c"):
        objects.append(f"{OUT}/{name}.o")
        run("gcc", *GUEST_FLAGS, "-c", "-o", objects[-1], f"{HERE}/guest/{name}")
    run("ld", "-m", "elf_i386", "-T", f"{HERE}/guest/rom.ld", "-o", f"{OUT}/guest.elf", *objects)
    run("objcopy", "-O", "binary", "--gap-fill", "0xff", f"{OUT}/guest.elf", f"{rom}.new")
    os.truncate(f"{rom}.new", ROM_LENGTH)
    os.replace(f"{rom}.new", rom)


def build_hot(path, values):
    """Builds a guest of two loops, with these values of its symbols, and returns the ROM."""
    run("gcc", "-m32", "-c", *(f"-Wa,--defsym,{name}={value}" for name, value in values.items()), "-o", f"{path}.o", f"{HERE}/guest/hot.S")
    run("objcopy", "-O", "binary", "-j", ".text", f"{path}.o", f"{path}.bin")
    return f"{path}.bin"


def build_library(library):
    run("gcc", "-O2", "-Wall", "-Wextra", "-shared", "-fPIC", "-o", f"{library}.new", f"{HERE}/preload.c", "-ldl", "-lpthread")
    os.replace(f"{library}.new", library)


def built(path, names, headers, *how):
    """Returns a program or library for these sources. Builds it if it is missing or older than they are."""
    make_folder(OUT)
    sources = [f"{HERE}/{name}" for name in names]
    with open(f"{path}.lock", "w") as lock:
        fcntl.flock(lock, fcntl.LOCK_EX)
        if is_stale(path, *sources, *(f"{HERE}/{name}" for name in headers)):
            run("gcc", "-O2", "-Wall", "-Wextra", *how, "-o", f"{path}.new", *sources, "-ldl", "-lpthread")
            os.replace(f"{path}.new", path)
    return path


def build_recorder(interface):
    """Returns the library that also records accesses, for a version of the plugin interface."""
    return built(f"{OUT}/accesses-{interface}.so", ("accesses.c", "preload.c"), ("accesses.h", "preload.h", "plugin.h"),
                 "-shared", "-fPIC", f"-DINTERFACE={interface}")


def build_guest_log():
    """Returns the program that makes the guest's log."""
    return built(f"{OUT}/guest_log", ("guest_log.c",), ("accesses.h",))


def build_work():
    """Returns the workload of a Linux guest."""
    return built(f"{OUT}/work", ("linux_guest/work.c",), (), "-static")


def build_observer(name, *how):
    """Returns one of the two observers of the recorder by page contents: `target`, a library with `how`, or `source`, a program."""
    library = "../../bindings/c/postcopy_record"
    return built(f"{OUT}/pages-{name}", (f"../pages/{name}.c", "../pages/pages.c", f"{library}.c"), ("../pages/pages.h", "../pages/older.h", f"{library}.h"),
                 f"-I{HERE}/../../bindings/c", *how)


def build():
    """Returns the paths of the ROM and of the library. Builds them if they are missing or older than their sources."""
    make_folder(OUT)
    rom, library = f"{OUT}/guest.bin", f"{OUT}/preload.so"
    with open(f"{OUT}/lock", "w") as lock:
        fcntl.flock(lock, fcntl.LOCK_EX)
        if is_stale(rom, *(f"{HERE}/guest/{name}" for name in ("start.S", "walk.c", "rom.ld"))):
            build_rom(rom)
        if is_stale(library, f"{HERE}/preload.c", f"{HERE}/preload.h"):
            build_library(library)
    return rom, library


def rom_for(plan, rom, path):
    """Writes the ROM with the settings of a plan."""
    with open(rom, "rb") as file:
        bytes_of_rom = file.read()
    settings = struct.pack("<8I", plan.pages, plan.words, plan.writes, plan.pace, plan.flush, plan.cpus, plan.hot, plan.suspended)
    with naming(path), open(path, "wb") as file:
        file.write(settings + bytes_of_rom[len(settings):])
