"""Where the text of a script goes: the file that a name leads to, and what stands there and is not written over.

The program has the same rules for `-o`.
"""
from __future__ import annotations

import contextlib
import errno
import os
import re
import stat
from typing import Optional

#: What a text is, by the word in its first line, with which it is told.
TEXTS = {
    b"records": "a file of a recorder",
    b"session": "a session",
    b"certificate": "a certificate",
    b"runs": "a text of runs",
    b"script": "a script",
    b"events": "a list of events",
}

#: The mode of a folder that all may write to, and where each removes their own files alone, such as /tmp.
SHARED = stat.S_ISVTX | stat.S_IWOTH

#: The most links that lead to a file. The system follows no more.
MOST_LINKS = 40


def leads_to(name: str) -> str:
    """The path that a name leads to, which is no link. As the system has it where fs.protected_symlinks is set, a link in a folder that all
    may write to has to belong to the user or to the folder's owner: nobody else can put another in the place of such a one."""
    path = name
    for _ in range(MOST_LINKS):
        if not os.path.islink(path):
            return os.path.join(os.path.realpath(os.path.dirname(path) or "."), os.path.basename(path))
        folder = os.stat(os.path.dirname(path) or ".")
        if folder.st_mode & SHARED == SHARED and os.lstat(path).st_uid not in (folder.st_uid, os.geteuid()):
            raise PermissionError(errno.EACCES, os.strerror(errno.EACCES), name)
        target = os.path.join(os.path.dirname(path), os.readlink(path))
        if os.path.exists(path) and not os.path.exists(target):  # an open file of a process, which has no name any more
            raise FileNotFoundError(errno.ENOENT, os.strerror(errno.ENOENT), name)
        path = target
    raise OSError(errno.ELOOP, os.strerror(errno.ELOOP), name)


def text_at(path: str) -> Optional[str]:
    """What a file is, if it is there and is a text that tells of a migration, or a file of a recorder, which has its name before its lines."""
    with contextlib.suppress(OSError):
        if not stat.S_ISREG(os.stat(path).st_mode):
            return None
        name = os.path.basename(path)
        with open(path, "rb") as file:
            front = file.read(32)
        if name == "recording-name" or (not front.strip(b"\0") and re.fullmatch(r"(machine|guest|source|link|lane|pager)\.[0-9]+\.[0-9]+", name)):
            return TEXTS[b"records"]
        begun = re.match(rb"postcopy-([a-z]+) ", front)
        return TEXTS.get(begun[1]) if begun else None
    return None
