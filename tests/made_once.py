"""What is made once for all processes of pytest, each a file in a folder of theirs: the first that asks for it makes it, and others wait."""
import fcntl
import os
import re

import pytest


class MadeOnce:
    def __init__(self, folder):
        self.folder = folder

    def path(self, name):
        return f"{self.folder}/{re.sub('[^A-Za-z0-9.]+', '-', name)}"

    def note(self, name):
        """Notes that what has this name was done."""
        open(self.path(name), "w", encoding="ascii").close()

    def is_noted(self, name):
        return os.path.exists(self.path(name))

    def file(self, name, make):
        """The file of this name. `make` is given its path, and answers why it could not be made, or None: then each test that asks fails."""
        made = self.path(name)
        with open(f"{made}.lock", "w", encoding="ascii") as lock:
            fcntl.flock(lock, fcntl.LOCK_EX)
            if not os.path.exists(made) and not os.path.exists(f"{made}.failed"):
                failed = make(made)
                if failed is not None:
                    with open(f"{made}.failed", "w", encoding="utf-8") as file:
                        file.write(failed)
        if os.path.exists(f"{made}.failed"):
            with open(f"{made}.failed", encoding="utf-8") as file:
                pytest.fail(f"{file.read()}\n{name}: failed", pytrace=False)
        return made
