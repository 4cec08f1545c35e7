"""Audits a session, and has its certificate checked where it is clean: check.py SESSION.

The status is 0 where it is safe, 1 where not, 2 for wrong words, and 3 or 4 where there is no answer: a text cannot be read or the
answer not be written, or there is no memory.
"""
import os
import sys

import postcopy


def main(session: str) -> int:
    report = postcopy.audit(session)
    print(report)
    if report.certificate is None:
        return 1
    answer = postcopy.check(session, report.certificate)
    print(answer)
    return 0 if answer.is_safe else 1


def status_of(session: str) -> int:
    try:
        status = main(session)
        sys.stdout.flush()
        return status
    except OSError as fault:
        print(f"check.py: {fault.filename or 'standard output'}: {fault.strerror}", file=sys.stderr)
        os.dup2(os.open(os.devnull, os.O_WRONLY), 1)  # which takes what is left to write
        return 3
    except postcopy.OutOfMemory as fault:
        print(f"check.py: {fault}", file=sys.stderr)
        return 4


if __name__ == "__main__":
    if len(sys.argv) != 2:
        sys.stderr.write(__doc__ or "")
        sys.exit(2)
    sys.exit(status_of(sys.argv[1]))
