"""Builds the wheel of the package, with the shared library in it. Python's own library is all that it needs.

    pip install ./bindings/python, pip wheel ./bindings/python         or, with no pip:
    python3 bindings/python/wheel_of_library.py FOLDER [PLATFORM]

The library is that of the checkout: where a source was changed, tools/library builds it first. PLATFORM is the one of the wheel's
name, as manylinux_2_34_x86_64; where none is given, it is that of the machine.
"""
import base64
import contextlib
import hashlib
import io
import os
import re
import subprocess
import sys
import sysconfig
import zipfile

HERE = os.path.dirname(os.path.abspath(__file__))


def read(name):
    with open(f"{HERE}/{name}", encoding="utf-8") as file:
        return file.read()


def project(field):
    return re.search(rf'^{field} = "(.*)"$', read("pyproject.toml"), re.M)[1]


def library():
    """The shared library of the checkout: the one that was built there, or the one that is shipped with it."""
    if not os.path.exists(f"{HERE}/../../tools/library"):
        sys.exit("wheel_of_library: this folder is not in its checkout; pip builds it there from version 21.3 on")
    ran = subprocess.run([f"{HERE}/../../tools/library", "--where"], stdout=subprocess.PIPE)
    if ran.returncode:
        sys.exit("wheel_of_library: there is no shared library of these sources: run tools/library first")
    with open(os.path.join(os.fsdecode(ran.stdout)[:-1], "libpostcopy.so"), "rb") as file:
        return file.read()


def contents():
    """The files of the package, by their names in the wheel."""
    for name in sorted(it for it in os.listdir(f"{HERE}/postcopy") if it.endswith((".py", ".typed"))):
        with open(f"{HERE}/postcopy/{name}", "rb") as file:
            yield f"postcopy/{name}", file.read()
    yield "postcopy/libpostcopy.so", library()


def build_wheel(wheel_directory, config_settings=None, metadata_directory=None, platform=None):
    """Writes the wheel into a folder, and answers its name."""
    name, version = project("name"), read("../../VERSION").strip()
    tag = "py3-none-" + (platform or re.sub(r"[-.]", "_", sysconfig.get_platform()))
    info = f"{name}-{version}.dist-info"
    files = dict(contents())
    with open(f"{HERE}/../../LICENSE", "rb") as file:
        files[f"{info}/LICENSE"] = file.read()
    files[f"{info}/METADATA"] = (
        f"Metadata-Version: 2.1\nName: {name}\nVersion: {version}\nSummary: {project('description')}\n"
        f"Requires-Python: {project('requires-python')}\nLicense: {project('license')}\nLicense-File: LICENSE\nAuthor: the Tingaro authors\nHome-page: {project('Homepage')}\n"
        f"Description-Content-Type: text/markdown\n\n{read(project('readme'))}"
    ).encode()
    files[f"{info}/WHEEL"] = f"Wheel-Version: 1.0\nGenerator: {name}\nRoot-Is-Purelib: false\nTag: {tag}\n".encode()
    rows = []
    for file, data in files.items():
        digest = base64.urlsafe_b64encode(hashlib.sha256(data).digest()).rstrip(b"=").decode()
        rows.append(f"{file},sha256={digest},{len(data)}\n")
    rows.append(f"{info}/RECORD,,\n")
    files[f"{info}/RECORD"] = "".join(rows).encode()
    wheel = f"{name}-{version}-{tag}.whl"
    packed = io.BytesIO()
    with zipfile.ZipFile(packed, "w", zipfile.ZIP_DEFLATED) as made:
        for file, data in files.items():
            # (no time of its own, so that one library gives one wheel)
            entry = zipfile.ZipInfo(file)
            entry.compress_type, entry.external_attr = zipfile.ZIP_DEFLATED, 0o100644 << 16
            made.writestr(entry, data)
    os.makedirs(wheel_directory, exist_ok=True)
    put(f"{wheel_directory}/{wheel}", packed.getvalue())
    return wheel


def put(path, data):
    """Writes a file, which gets all of the bytes or stays as it was."""
    part = f"{path}.{os.getpid()}"
    try:
        with open(part, "wb") as file:
            file.write(data)
        os.replace(part, path)
    except OSError as fault:
        with contextlib.suppress(OSError):
            os.unlink(part)
        raise OSError(fault.errno, fault.strerror, path) from None


def main(words):
    if len(words) not in (1, 2):
        sys.exit(__doc__)
    try:
        print(build_wheel(words[0], platform=words[1] if len(words) == 2 else None))
    except OSError as fault:
        sys.exit(f"wheel_of_library: {fault.filename or 'standard output'}: {fault.strerror}")


if __name__ == "__main__":
    main(sys.argv[1:])
