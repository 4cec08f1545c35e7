"""Pages' contents as cells.

A page of 4,096 bytes has one cell for each word that the guest uses. The rest of the page should be zeros. If it is not, the last cell
is mixed with a hash of the rest, so that it differs.
"""
import array
import hashlib
import sys

from records import Hole
from stream import PAGE_BYTES
from wire import ZERO


def cells_of(page, words):
    used, rest = page[:words * 8], page[words * 8:]
    values = array.array("Q", used)
    if sys.byteorder == "big":
        values.byteswap()
    if rest.count(0) != len(rest):
        values[-1] ^= int.from_bytes(hashlib.blake2b(rest, digest_size=8).digest(), "big")
    if sys.byteorder == "little":
        values.byteswap()
    return values.tobytes().hex()


class Contents:
    """The files of a recording that hold pages one after another."""

    def __init__(self, read, words):
        self.files, self.read, self.words = {}, read, words

    def page(self, file, place):
        if place == ZERO:
            return bytes(PAGE_BYTES)
        if file not in self.files:
            self.files[file] = self.read(file)
        page = self.files[file][int(place) * PAGE_BYTES:(int(place) + 1) * PAGE_BYTES]
        if len(page) < PAGE_BYTES:
            raise Hole(f"{file} ends before page {place}")
        return page

    def cells(self, file, place):
        return "0" * 16 * self.words if place == ZERO else cells_of(self.page(file, place), self.words)
