"""The certificates of machines of the greatest sizes whose logs are empty: a line for each of 65,536 pages in the first
version, and of 16,777,216 in the third, and no run.
"""
import subprocess

import pytest
from cases import same


def certificate(version, pages):
    """The pieces of the certificate of such a machine."""
    yield f"postcopy-certificate {version}\npages {pages}\n".encode()
    for at in range(0, pages, 65536):
        yield "".join(f"page {page} none\n" for page in range(at, min(pages, at + 65536))).encode()
    yield b"runs 0\nend\n"


def is_of(file, pieces):
    """Whether a file has these pieces, and no more."""
    with open(file, "rb") as it:
        return all(it.read(len(piece)) == piece for piece in pieces) and not it.read(1)


@pytest.mark.cases(4)
@pytest.mark.parametrize("version, pages, cells, logs", (
    (1, 65536, 16, ("guest", "source", "link", "pager")),
    (3, 16777216, 1, ("guest", "source", "link", "lane", "pager"))))
def test_whole_machine(program, room, version, pages, cells, logs):
    """Certifies such a machine with these logs, and has the certificate checked."""
    with open(f"{room}/session", "w", encoding="ascii") as file:
        file.write(f"postcopy-session {version}\npages {pages}\ncells {cells}\ninit 0\n" + "".join(f"{log} 0\n" for log in logs) + "end\n")
    with open(f"{room}/certificate", "wb") as file:
        same("the status of certify", subprocess.run([program, "certify", f"{room}/session"], stdout=file).returncode, 0)
    same("the certificate", is_of(f"{room}/certificate", certificate(version, pages)), True)
    ran = subprocess.run([program, "check", f"{room}/session", f"{room}/certificate"], stdout=subprocess.PIPE)
    same("the status of check", ran.returncode, 0)
    same("the check of the certificate", ran.stdout, b"yes\n")
