"""Tests of recorders/ that need neither QEMU nor CRIU: the parsers of what goes over their connections, the relays, the folders,
what differs between versions, roots of other releases of Debian, sessions of records by their names, and kept recordings.

Each kept recording has to become its session, byte for byte, and to have its verdict. And each fact that the conversion of
a recording rests on is shown by a recording in which it is told wrong: that has to be found.
"""
import os
import sys

import pytest

TOP = os.path.dirname(os.path.dirname(os.path.abspath(__file__)))
sys.path[:0] = [f"{TOP}/recorders/tests", f"{TOP}/recorders/qemu", f"{TOP}/recorders/criu", f"{TOP}/recorders"]
import accesses_test
import axes_test
import build_test
import campaign_test
import check
import criu_campaign_test
import criu_programs_test
import criu_test
import criu_waiting_test
import facts_test
import folders_test
import linux_command_test
import linux_test
import page_server_test
import records_test
import relay_test
import report_test
import roots_test
import shows_test
import stream_test
import versions_test


# How many cases each has at least.
LEAST = {
    records_test: 12, roots_test: 28, stream_test: 35, relay_test: 56, folders_test: 106, campaign_test: 56, report_test: 30, versions_test: 57, shows_test: 44, axes_test: 150, build_test: 26, facts_test: 175,
    accesses_test: 32, linux_test: 74, linux_command_test: 73, page_server_test: 151, criu_campaign_test: 36, criu_programs_test: 13, criu_waiting_test: 33, criu_test: 87,
}


# Parts of them that find a planted body, each by itself.
PARTS = {
    "statuses": lambda tests, room: facts_test.of_statuses(tests),
    "failing": lambda tests, room: campaign_test.of_a_recorder_that_fails(tests),
    "link": folders_test.of_a_link,
}


@pytest.mark.cases(2)
@pytest.mark.parametrize("part", PARTS)
def test_part(program, monkeypatch, room, part):
    monkeypatch.setenv("POSTCOPY", program)
    PARTS[part](check.Tests(), room)


@pytest.mark.parametrize("module", [pytest.param(it, marks=pytest.mark.cases(least), id=it.__name__) for it, least in LEAST.items()])
def test_recorders(program, monkeypatch, module):
    monkeypatch.setenv("POSTCOPY", program)
    module.run(check.Tests())
