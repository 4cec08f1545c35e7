"""What the tests of the page have in common: their files, and what they ask of the page and of the program."""
import os
import re
import subprocess

from cases import same

TOP = os.path.dirname(os.path.dirname(os.path.abspath(__file__)))

def read(name, how="rb"):
    with open(name, how) as file:
        return file.read()


def write(name, data):
    with open(name, "wb") as file:
        file.write(data if isinstance(data, bytes) else data.encode())
    return name


def example(name, *texts):
    return [f"{TOP}/examples/{name}/{it}" for it in texts or ("session",)]


def squeezed(text):
    return re.sub(r"\s+", "", text or "")


def words_of(program, *words):
    return subprocess.run([program, *words], stdin=subprocess.DEVNULL, stdout=subprocess.PIPE, stderr=subprocess.DEVNULL).stdout.decode()


def says(browser, what, kind, *sentences):
    """Counts whether the verdict is of this kind, and has these sentences."""
    found, colour = browser.text("#verdict"), browser.run("return document.getElementById('verdict').className")
    same(f"the verdict on {what}: {found}", (colour, [it for it in sentences if it not in found]), (kind, []))


def is_shown(browser, what, files, kind, *sentences):
    """Chooses files; the verdict has to be of this kind, and to have these sentences."""
    browser.choose(*files)
    says(browser, what, kind, *sentences)


def rows_shown(browser):
    return browser.run("return document.getElementById('picture').shadowRoot.querySelectorAll('.record').length")


def rows_drawn(program, *words):
    return words_of(program, "draw", *words).count("<g class='row record")
