"""Writes files. A fault names the file that it is of."""
import contextlib
import os
import secrets


@contextlib.contextmanager
def naming(path):
    """Has a fault name this file, if it names none, as where the disk is full."""
    try:
        yield
    except OSError as fault:
        raise OSError(fault.errno, fault.strerror, fault.filename or path) from None


def write(path, text, how="w"):
    """Writes a text to a file, or with "a" adds it. A fault names the file."""
    with naming(path), open(path, how, encoding="utf-8") as out:
        out.write(text)


def lines_of(path, read, what):
    """Returns what `read` makes of each line of a file. Raises ValueError, with the line, if one is no such text, as where it is not whole."""
    found = []
    with open(path, encoding="utf-8") as lines:
        for number, line in enumerate(lines, 1):
            try:
                found.append(read(line))
            except (KeyError, TypeError, ValueError):
                raise ValueError(f"{path}:{number}: this line is no {what}, or not whole") from None
    return found


def replace(path, data):
    """Writes bytes to a file, which gets all of them or stays as it was. A device or a pipe is written in place."""
    if os.path.exists(path) and not os.path.isfile(path):
        with naming(path), open(path, "wb") as out:
            out.write(data)
        return
    place = os.path.realpath(path)
    part = f"{place}.{secrets.token_hex(8)}"
    with naming(path):
        try:
            with open(part, "xb") as out:
                out.write(data)
                with contextlib.suppress(FileNotFoundError):
                    os.fchmod(out.fileno(), os.stat(place).st_mode & 0o777)
            os.replace(part, place)
        except OSError as fault:
            raise OSError(fault.errno, fault.strerror) from None  # (the other name would say nothing)
        finally:
            with contextlib.suppress(FileNotFoundError):
                os.unlink(part)
