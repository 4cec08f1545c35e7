"""Makes one migration of a campaign. Reads a plan as JSON, and writes the result to a folder.

    one.py FOLDER SOURCE TARGET     the QEMUs of both sides
"""
import os
import sys

HERE = os.path.dirname(os.path.realpath(__file__))
sys.path[:0] = [HERE, f"{HERE}/..", f"{HERE}/../../bindings/python"]
import folders  # noqa: E402
import judge  # noqa: E402
from kinds import plan_from_text  # noqa: E402
from emulator import Emulator  # noqa: E402
from run import Migration  # noqa: E402


def main():
    folders.end_in_order()
    folder, *names = sys.argv[1:]
    emulators = {name: Emulator(name) for name in names}
    outcome = Migration(plan_from_text(sys.stdin.read()), folder, lambda line: None, [emulators[name] for name in names]).run()
    judge.judge(folder, outcome.ended)


if __name__ == "__main__":
    main()
