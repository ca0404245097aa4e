"""Tests of docs/MEMORY.md beside the sources of the crates: the page is as dev/memory_page.py writes it, each public call stands on
it once, and each clause that its tables name stands at that call."""
import collections
import re

import memory_page
import pytest
from clone import read_text
from memory_page import GOES_ON, REFUSED, TOLD, by_hand, calls, crates, refusals, refused

ONE_CLAUSE, READS = 'its clause', 'reads'       # what the last column says where no clause has a name


@pytest.fixture(scope='module')
def text():
    return read_text('docs', 'MEMORY.md')


def test_the_sources_are_read():
    """Some calls of each sort, read from the sources, so that no test here goes over nothing."""
    for crate, name, clauses in (('packet_chain', 'PacketCell::new', ['ok', 'err']),
                                 ('net_machine', 'Net::copy', ['']),
                                 ('window_core', 'Window::new', None), ('window_text', 'Sink::put', None),
                                 ('trace_text', 'line_text', ['ok', 'err'])):
        assert (crate, name) in calls()
        if clauses:
            assert calls()[crate, name].clauses == clauses
    assert len(calls()) > 250
    assert {crate for crate, _ in calls()} | {'table_run', 'run_laws', 'window_law'} == set(crates())
    assert {'AllocError', 'LoadFault', 'AsmFault', 'StepFault', 'GroupFault', 'TurnFault',
                          'EngineFault', 'MoveFault', 'BreakFault', 'SessionFault'} <= refusals()


def test_the_page_is_as_it_is_written(text):
    """`dev/memory_page.py` writes it."""
    assert memory_page.page(text) == text


def test_a_part_that_is_old_is_seen(text):
    row = '| packet_chain | `PacketChain` | `copy` |\n'
    assert row in text
    assert memory_page.page(text.replace(row, '')) == text
    with pytest.raises(AssertionError, match='step_into'):
        memory_page.page(text.replace('`Net::step_into`, ', ''))


def test_every_call_stands_once(text):
    on_page = [(crate, name) for crate, name, _, _ in by_hand(text, REFUSED, GOES_ON, TOLD)]
    on_page += [at for found in memory_page.PARTS.values() for at in found(text)]
    assert [at for at, count in collections.Counter(on_page).items() if count > 1] == []
    assert set(on_page) == set(calls())


def test_what_can_be_refused_is_found(text):
    on_page = {(crate, name) for crate, name, _, _ in by_hand(text, REFUSED, TOLD)}
    assert on_page <= set(refused()) and len(on_page) > 50
    assert len(memory_page.reading(text)) > 50 and 0 < len(memory_page.freeing(text)) < 10


def test_clauses_stand_at_their_calls(text):
    for crate, name, _, said in by_hand(text, REFUSED, GOES_ON, TOLD):
        call = calls()[crate, name]
        clauses = re.findall(r'`(\w+)`', said)
        assert set(clauses) <= set(call.clauses) - {''}
        words = re.sub(r'`\w+`|[, ]+', ' ', said).strip()
        assert words in (('',) if clauses else (READS, ONE_CLAUSE))
        if words == ONE_CLAUSE:
            assert call.clauses == ['']
        if words == READS:
            assert memory_page.only_reads((crate, name))
