"""Packs recordings into one small file, and unpacks them.

    python3 recorders/qemu/pack.py FOLDER FILE     packs what a session of FOLDER is made from
    python3 recorders/qemu/pack.py --out FILE FOLDER

A file of a recording is never written over. The status is 1 if a file cannot be read or written, if one of a recording's files is missing,
or if what is to be unpacked was not packed here.
"""
import errno
import lzma
import os
import sys
import tarfile

sys.path.append(os.path.dirname(os.path.dirname(os.path.abspath(__file__))))
import packing  # noqa: E402

FILES = ("plan.json", "relay.log", "relay.pages", "source.raw", "target.raw", "target.pages", "halt.mem")
OF_LINUX = ("init.mem", "end.mem", *(f"{side}.{what}" for side in ("source", "target") for what in ("accesses", "counts")))


def refuse(names, folder):
    """Raises FileExistsError if a folder has a file of one of these names."""
    for path in (f"{folder}/{name}" for name in names):
        if os.path.lexists(path):
            raise FileExistsError(errno.EEXIST, "it is there already, and is a file of a recording", path)


def pack(folder, path):
    """Packs what a session is made from. For a Linux guest, also packs what its log is made from."""
    if os.path.basename(path) in (*FILES, *OF_LINUX):
        refuse([os.path.basename(path)], os.path.dirname(path) or ".")
    packing.pack(folder, names_of(name for name in OF_LINUX if os.path.lexists(f"{folder}/{name}")), path)


def names_of(found):
    """Returns the names of all files of a recording of which some were found: those of a Linux guest too, if one of them is there."""
    return (*FILES, *OF_LINUX) if set(found) & set(OF_LINUX) else FILES


def unpacked(path):
    """Returns the files of a packed recording, by their names. Raises ValueError if it contains any other file, or lacks one."""
    files = packing.unpacked(path, (*FILES, *OF_LINUX))
    if lacking := [name for name in names_of(files) if name not in files]:
        raise ValueError(f"a recording also has {', '.join(lacking)}")
    return files


def unpack(path, folder):
    files = unpacked(path)
    os.makedirs(folder, exist_ok=True)
    refuse(files, folder)
    for name, data in files.items():
        with open(f"{folder}/{name}", "wb") as out:
            out.write(data)


def main(words):
    try:
        if len(words) == 3 and words[0] == "--out":
            unpack(*words[1:])
        elif len(words) == 2:
            pack(*words)
        else:
            sys.exit(__doc__)
    except OSError as fault:
        sys.exit(f"pack.py: {fault.filename or words[-1]}: {fault.strerror}")
    except (ValueError, EOFError, lzma.LZMAError, tarfile.TarError) as fault:
        sys.exit(f"pack.py: {words[1]}: {fault}")


if __name__ == "__main__":
    main(sys.argv[1:])
