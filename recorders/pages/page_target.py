"""The target's side of a recording by page contents: the key, the folder, and what QEMU's environment has to have there."""
import os
import pwd
import re
import secrets
import shutil
import time
import xml.etree.ElementTree as tree
from glob import glob

import build
from files import naming, write

QEMU_NAMESPACE = "http://libvirt.org/schemas/domain/qemu/1.0"
LIBVIRT_USERS = ("libvirt-qemu", "qemu")
LIBRARY, MEANS, BLOCKS = "pages.so", "README", "blocks"
FOLDER_VARIABLE, KEY_VARIABLE, TRACK_VARIABLE = "POSTCOPY_PAGES", "POSTCOPY_PAGES_KEY", "POSTCOPY_PAGES_TRACK"
RULES = "/etc/apparmor.d/abstractions/libvirt-qemu", "/etc/apparmor.d/local/abstractions/libvirt-qemu", "/etc/apparmor.d/abstractions/libvirt-qemu.d/*"
IN_RULE = {"@{PROC}": "/proc", "@{pid}": "[0-9]+", "@{pids}": "[0-9]+", "**": ".*", "*": "[^/]*", "?": "[^/]", "{": "(?:", ",": "|", "}": ")"}  # what AppArmor's words match
BYTES_OF_PAGE = 90  # of the records of a page, at each side
UNITS = {"": 10, "B": 0, "BYTES": 0, "K": 10, "KB": 10, "KIB": 10, "M": 20, "MB": 20, "MIB": 20, "G": 30, "GB": 30, "GIB": 30, "T": 40, "TIB": 40}
ON_FOLDER = """This folder has one side of a post-copy migration, recorded by the contents of pages. `recorders/qemu/pages audit TARGET SOURCE`
judges both sides. Then `clean` means that each page that the target's QEMU put in place, or kept of what pre-copy had left, was
what the source's memory held when the migration was complete, while its processors stood still; and that each page came.

It says nothing of what the guest did before or since, of devices and their state, of whether the guest used a page before it was
there, nor of what was written to a page at the target later. Nobody looked at the stream: the `send` of each page is what the source's
memory held, and a page that was changed at the source as it was sent, on the way or at the target, is `altered` in each case; or
`read`, if nobody wrote to it and it was looked at in the end.
"""


def new_key():
    """Returns a key for one migration: 128 bits as hexadecimal digits."""
    return secrets.token_hex(16)


def key_of(path):
    """Returns the key that a file has. Raises Missing if it has none."""
    with naming(path), open(path, encoding="ascii", errors="replace") as file:
        text = file.read().strip()
    if not re.fullmatch("[0-9a-f]{32}", text):
        raise build.Missing(f"{path} has no key: `pages key > {path}` makes one, for both sides of one migration")
    return text


def take_folder(folder):
    """Makes a folder for one side of a recording, and says in it what is recorded. Raises Missing if it has something of another."""
    os.makedirs(folder, exist_ok=True)
    if left := sorted(set(os.listdir(folder)) - {MEANS, LIBRARY}):
        raise build.Missing(f"{folder} has {left[0]}: name a new or an empty folder for each migration")
    write(f"{folder}/{MEANS}", ON_FOLDER)


def prepare(folder, key, is_tracking, user=None):
    """Makes the target's folder, for an emulator that runs as this user. Returns the variables of its environment."""
    if " " in folder or ":" in folder:
        raise build.Missing(f"'{folder}': the loader takes no library from a folder whose name has a space or a colon")
    built = build.build_observer("target", "-shared", "-fPIC", "-fvisibility=hidden", "-include", f"{build.HERE}/../pages/older.h")
    take_folder(folder)
    library = f"{folder}/{LIBRARY}"
    shutil.copyfile(built, library)
    os.chmod(library, 0o755)
    if user:
        os.chown(folder, user.pw_uid, user.pw_gid)
    return {"LD_PRELOAD": library, FOLDER_VARIABLE: folder, KEY_VARIABLE: key, **({TRACK_VARIABLE: "1"} if is_tracking else {})}


def user_of_libvirt():
    """Returns the user as whom libvirt runs emulators here, if there is one."""
    for name in LIBVIRT_USERS:
        try:
            return pwd.getpwnam(name)
        except KeyError:
            pass
    return None


def memory_of_words(words):
    """Returns the bytes of memory that the words of a QEMU ask for by -m, or 0."""
    for option, value in zip(words, words[1:]):
        if option in ("-m", "--m") and (match := re.match(r"(?:size=)?(\d+)([a-zA-Z]*)", value)):
            return int(match[1]) << UNITS.get(match[2].upper() or "M", 20)
    return 0


def obstacles(folder, memory, user):
    """Yields what would keep this machine from recording a target with so many bytes of memory."""
    if user and user.pw_uid != 0 or not user and os.geteuid() != 0:
        with open("/proc/sys/vm/unprivileged_userfaultfd", encoding="ascii") as file:
            if file.read().strip() == "0":
                yield "userfaultfd is for root alone here, and without it there is no post-copy: sysctl vm.unprivileged_userfaultfd=1"
    free = shutil.disk_usage(folder)
    needed = memory // 4096 * BYTES_OF_PAGE
    if free.free < needed:
        yield f"{folder} has room for {free.free >> 20} MiB, and {needed >> 20} MiB are needed"
    if user:
        part = folder
        while part != "/":
            part = os.path.dirname(part)
            if not os.stat(part).st_mode & 0o001 and os.stat(part).st_uid != user.pw_uid:
                yield f"{user.pw_name} cannot go through {part} to {folder}: chmod o+x {part}, or name a folder elsewhere"


def remarks(folder, root=""):
    """Yields what may be in the way: what no rule for emulators allows, where AppArmor is on."""
    try:
        with open(f"{root}/sys/module/apparmor/parameters/enabled", encoding="ascii") as file:
            is_on = file.read().strip() == "Y"
    except OSError:
        is_on = False
    rules = [rule for path in RULES for name in sorted(glob(f"{root}{path}")) for rule in rules_of(name)] if is_on else []
    needed = {f"{folder}/** rwm,": [(f"{folder}/{LIBRARY}", "m"), (f"{folder}/pager.1.0", "w")], "@{PROC}/@{pid}/{smaps,pagemap} r,": [("/proc/1/smaps", "r"), ("/proc/1/pagemap", "r")]}
    lacks = [line for line, uses in needed.items() if is_on and not all(any(path.fullmatch(name) and use in allowed for path, allowed in rules) for name, use in uses)]
    if lacks:
        yield f"AppArmor is on, and an emulator under a profile needs, in {RULES[1]}: {' and '.join(lacks)}"


def rules_of(path):
    """Yields the rules for files of a profile: what names match, and what may be done with them."""
    with open(path, encoding="utf-8", errors="replace") as file:
        for name, allowed in re.findall(r"^\s*(?:owner\s+)?([/@]\S*)\s+([a-zA-Z]+)\s*,", file.read(), re.MULTILINE):
            parts = re.split(r"(@\{PROC\}|@\{pids?\}|\*\*|[*?{},])", name)
            yield re.compile("".join(IN_RULE.get(part, re.escape(part)) for part in parts)), allowed


# libvirt

def memory_of_domain(domain):
    memory = domain.find("memory")
    return 0 if memory is None else int(memory.text) << UNITS.get(memory.get("unit", "KiB").upper(), 10)


def with_environment(domain, variables):
    """Adds variables to the environment of a domain's emulator. Those of an earlier migration are replaced."""
    tag = f"{{{QEMU_NAMESPACE}}}"
    words = domain.find(f"{tag}commandline")
    if words is None:
        words = tree.SubElement(domain, f"{tag}commandline")
    for name, value in variables.items():
        for old in [env for env in words.findall(f"{tag}env") if env.get("name") == name]:
            words.remove(old)
        tree.SubElement(words, f"{tag}env", name=name, value=value)


def domain_of(text):
    """Returns the tree of a domain's XML. Raises Missing if it is none."""
    tree.register_namespace("qemu", QEMU_NAMESPACE)
    try:
        domain = tree.fromstring(text)
    except tree.ParseError as fault:
        raise build.Missing(f"standard input is no XML of a domain: {fault}") from None
    if domain.tag != "domain":
        raise build.Missing("standard input is no XML of a domain: `virsh dumpxml --migratable NAME` writes one")
    return domain


def text_of(domain):
    return tree.tostring(domain, encoding="unicode") + "\n"


# Whether the library is there

def process_of(folder):
    """Returns the process that records into the folder, or None."""
    logs = glob(f"{glob_escape(folder)}/pager.*")
    return int(logs[0].rsplit(".", 2)[1]) if logs else None


def glob_escape(folder):
    return re.sub(r"([*?[])", r"[\1]", folder)


def wait_for_process(folder, seconds):
    """Waits until a process records into the folder, and returns it, or None."""
    until = time.monotonic() + seconds
    while (found := process_of(folder)) is None and time.monotonic() < until:
        time.sleep(0.05)
    return found
