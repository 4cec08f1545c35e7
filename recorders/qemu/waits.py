"""For how many seconds the threads of processes have waited for a processor, which tells a busy machine from a QEMU that hangs."""
import glob


def seconds_waited(path):
    """Returns how many seconds a thread, given its folder in /proc, has waited for a processor."""
    try:
        with open(f"{path}/schedstat", encoding="ascii") as file:
            return int(file.read().split()[1]) / 1e9
    except (OSError, IndexError):
        return 0.0  # it has ended, or the kernel does not count this


def waits_of(*processes):
    """Returns the seconds of each thread of these processes, by its folder."""
    return {path: seconds_waited(path) for process in processes for path in glob.glob(f"/proc/{process}/task/*")}


def longest(now, before=None):
    """Returns how many seconds a thread has waited since an earlier time: the longest of all."""
    return max((seconds - (before or {}).get(path, 0.0) for path, seconds in now.items()), default=0.0)
