"""Whether each mutant and each planted body can be applied, and each crate has one in a file NAME.edit; and a few of them are tried.

The commit's hash chooses which: four of one crate, so that its whole proof is paid once, over the libraries that 'rt ci' left.
"""
import mutants
import pytest
from cases import count

# How many mutants and planted bodies there are at least.
LEAST = 700


@pytest.mark.quick
@pytest.mark.cases(LEAST)
def test_each_can_be_applied():
    found, planted, faults = mutants.checked()
    for fault in faults:
        count(False, fault)
    for _ in range(found + planted - len(faults)):
        count(True, "")


@pytest.mark.toolchain
@pytest.mark.slow
def test_a_few_are_refused():
    assert mutants.try_few(mutants.FEW) == 0
