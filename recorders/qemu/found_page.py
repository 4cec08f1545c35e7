"""Parts of pages that a command writes, between two marks that name it."""
from files import replace


def marks(command):
    return f"<!-- written by recorders/qemu/{command} -->\n", f"<!-- end of what recorders/qemu/{command} writes -->\n"


def put(page, text, both):
    """Returns the page with this part. Raises ValueError if the page has no place for it."""
    begin, end = both
    start = page.index(begin) + len(begin)
    return f"{page[:start]}\n{text}\n{page[page.index(end):]}"


def write(path, text, both):
    with open(path, encoding="utf-8") as file:
        page = put(file.read(), text, both)
    replace(path, page.encode())
