"""Packs recordings into one small file, and unpacks them. The same recording gives the same file."""
import io
import lzma
import tarfile

from files import replace


def pack(folder, names, path):
    """Packs these files of a folder into the file `path`."""
    packed = io.BytesIO()
    with tarfile.open(fileobj=packed, mode="w", format=tarfile.USTAR_FORMAT) as archive:
        for name in names:
            with open(f"{folder}/{name}", "rb") as file:
                data = file.read()
            member = tarfile.TarInfo(name)
            member.size = len(data)
            archive.addfile(member, io.BytesIO(data))
    replace(path, lzma.compress(packed.getvalue(), preset=9 | lzma.PRESET_EXTREME))


def unpacked(path, names):
    """Returns the files of a packed recording, by their names. Raises ValueError if it contains any other file, or one twice."""
    with open(path, "rb") as file:
        packed = io.BytesIO(lzma.decompress(file.read()))
    with tarfile.open(fileobj=packed) as archive:
        found = archive.getnames()
        if strange := set(found) - set(names):
            raise ValueError(f"{path} contains {', '.join(sorted(strange))}; a recording has no such file")
        if len(found) > len(set(found)):
            raise ValueError(f"{path} contains a file twice")
        return {member.name: archive.extractfile(member).read() for member in archive}
