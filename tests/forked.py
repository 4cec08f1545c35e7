"""Runs scripts of Python in forks of this process, which has read Python's modules already: a run takes a tenth of what a process of its own does."""
import ast
import functools
import importlib
import importlib.util
import os
import select
import signal
import subprocess
import sys
import traceback
import types

TOP = os.path.dirname(os.path.dirname(os.path.realpath(__file__)))


@functools.cache
def code_of(script):
    """A script's code. What it imports of Python's is read here, once."""
    with open(script, encoding="utf-8") as file:
        tree = ast.parse(file.read(), script)
    for name in (alias.name for it in tree.body if isinstance(it, ast.Import) for alias in it.names):
        if importlib.util.find_spec(name):
            importlib.import_module(name)
    return compile(tree, script, "exec", dont_inherit=True)


def ended(script, code, words):
    """Runs a script to its end, as the main module of this process: the status."""
    sys.argv, sys.path = [script, *words], [os.path.dirname(script), *(it for it in sys.path if not it.startswith(TOP))]
    main = types.ModuleType("__main__")
    main.__file__ = script
    sys.modules["__main__"] = main
    try:
        exec(code, main.__dict__)
    except SystemExit as end:
        if isinstance(end.code, str):
            print(end.code, file=sys.stderr)
        return end.code if isinstance(end.code, int) else int(end.code is not None)
    except BaseException:
        traceback.print_exc()
        return 1
    return 0


def input_of(given):
    if not given:
        return os.open(os.devnull, os.O_RDONLY)
    file = os.memfd_create("input")
    os.pwrite(file, given, 0)
    return file


def run(script, *words, given=b"", cwd=None, env=None, timeout=120, encoding=None):
    """What a script does, as subprocess.run tells it, and what it wrote, as bytes or text. After so many seconds it is ended."""
    code, pipes = code_of(script), [os.pipe(), os.pipe()]
    child = os.fork()
    if child == 0:
        status = 1
        try:
            signal.alarm(timeout)
            for number, file in enumerate((input_of(given), *(writing for _, writing in pipes))):
                os.dup2(file, number)
            told = sys.__stdout__
            sys.stdin, sys.stdout = open(0, closefd=False), open(1, "w", encoding=told.encoding, errors=told.errors, closefd=False)
            sys.stderr = open(2, "w", errors="backslashreplace", buffering=1, closefd=False)
            for file in (it for pipe in pipes for it in pipe):
                os.close(file)
            os.chdir(cwd or os.curdir)
            os.environ.update(env or {})
            status = ended(script, code, words)
            sys.stdout.flush()
        finally:
            os._exit(status)
    for _, writing in pipes:
        os.close(writing)
    told = {reading: b"" for reading, _ in pipes}
    left = [*told]
    while left:
        for reading in select.select(left, [], [])[0]:
            piece = os.read(reading, 1 << 20)
            told[reading] += piece
            if not piece:
                os.close(reading)
                left.remove(reading)
    status = os.waitstatus_to_exitcode(os.waitpid(child, 0)[1])
    return subprocess.CompletedProcess([script, *words], status, *(it.decode(encoding) if encoding else it for it in told.values()))
