"""Commands that a test may do without."""
import os
import subprocess

TOP = os.path.dirname(os.path.dirname(os.path.abspath(__file__)))


def can_have(*needed):
    """Whether commands are there, each as tools/need takes it. Only the gate of CI has them installed, within some minutes."""
    quiet = {"stdin": subprocess.DEVNULL, "stdout": subprocess.DEVNULL, "stderr": subprocess.DEVNULL}
    return subprocess.run(["timeout", "400", f"{TOP}/tools/need", *needed], **quiet).returncode == 0
