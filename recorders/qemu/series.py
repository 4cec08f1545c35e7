"""Makes many migrations, each in its own process, which also judges it."""
import concurrent.futures
import os
import subprocess
import sys
import time

import folders
import results
from roots import end_with_parent

HERE = os.path.dirname(os.path.abspath(__file__))


def make(plan, folder, names):
    """Makes one migration with the QEMUs of these names, and returns its result. Removes a folder with nothing to look at."""
    words = [sys.executable, "-B", f"{HERE}/one.py", folder, *names]
    try:
        done = subprocess.run(words, input=plan.to_text(), capture_output=True, text=True, timeout=plan.limit * 8, preexec_fn=end_with_parent)
        result = results.result_of(plan, folder, done)
    except subprocess.TimeoutExpired:
        result = results.Result(plan, "not judged: it took too long", "")
    result.load = os.getloadavg()[0]
    if result.is_settled:
        folders.remove(folder)
    return result


def make_all(todo, jobs, until=None):
    """Yields the results of `todo`, a list of (plan, folder, names), in order. After `until`, no more are begun."""
    def make_in_time(one):
        return None if until is not None and time.monotonic() > until else make(*one)

    with concurrent.futures.ThreadPoolExecutor(jobs) as pool:
        yield from (result for result in pool.map(make_in_time, todo) if result is not None)
