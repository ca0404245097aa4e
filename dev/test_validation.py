"""Tests of what docs/VALIDATION.md says that wants no other program: the laws with their tolerances, ns-3's expectations, CoDel
beside RFC 8289's pseudocode, the switches of ns-2's rules; and that the page's tables are those of the numbers that are kept.

They want the built program; without it those of runs are left out.
"""
import copy
import math
import os
import re

import pytest

import validate
from clone import PROGRAM
from tcpsim_model.sender import Sender
from validation import codel, expectations, laws, ns2_sender, page, rules, stored

built = pytest.mark.built


# ---- the page

def test_the_tables_are_those_of_the_numbers():
    text = page.read()
    assert page.written(text) == text


@pytest.mark.parametrize('row', page.TABLES)
def test_each_row_is_kept_with_its_peers_and_date(row):
    kept = stored.load(row)
    assert len(kept['date'].split('-')) == 3
    assert kept['date'] in page.read()
    peers = {'laws': set(), 'expectations': set(), 'codel': {'Linux', 'ns-3'}}.get(row, {'ns-2'})
    assert {*kept['peers']} == peers
    assert all(kept['peers'].values())


def test_another_number_is_another_table(monkeypatch):
    kept = copy.deepcopy(stored.load('aggregates'))
    kept['numbers'][0]['tcpsim']['timeouts'] += 1
    monkeypatch.setattr(stored, 'load', lambda row: kept if row == 'aggregates' else None)
    text = page.read()
    assert page.written(text) != text


def test_each_picture_is_there():
    pictures = re.findall(r'\]\(pictures/(\w+\.svg)\)', page.read())
    assert len(pictures) == 4
    for name in [*pictures, 'newreno_open_window.svg']:
        assert os.path.exists(os.path.join(page.TOP, 'docs', 'pictures', name)), name


# ---- laws

@built
@pytest.mark.parametrize('name', laws.LAWS)
def test_a_law_is_kept(name):
    points = laws.LAWS[name](PROGRAM)
    assert [point for point in points if not laws.is_kept(point)] == []
    assert [point._asdict() for point in points] == stored.load('laws')['numbers'][name]


def test_what_is_off_is_seen():
    assert laws.is_kept(laws.Point('', 100.0, 101.0, .015))
    assert not laws.is_kept(laws.Point('', 100.0, 102.0, .015))
    assert not laws.is_kept(laws.Point('', 100.0, 98.0, .015))


def test_the_law_of_a_buffer():
    """With no buffer three quarters are used; with half a product the window goes from 3/4 to 3/2 of it: a quarter of a product of
    round trips that carry 7/8 of it in the mean, then half of a product of round trips in which the link is full."""
    assert laws.filled(0) == .75
    full = .5 * 1.25
    assert math.isclose(laws.filled(.5), (.25 * .875 + full) / (.25 + full))
    assert laws.filled(1) == laws.filled(2) == 1


@pytest.mark.parametrize('segments, initial, b, count', [(1, 3, 1, 1), (3, 3, 1, 1), (4, 3, 1, 2), (9, 3, 1, 2), (10, 3, 1, 3),
                                                         (70, 10, 1, 3), (71, 10, 1, 4), (10, 4, 2, 2), (11, 4, 2, 3)])
def test_rounds_of_slow_start(segments, initial, b, count):
    assert laws.rounds(segments, initial, b) == count


# ---- expectations

@built
@pytest.mark.parametrize('name, expected, check', expectations.ALL, ids=[name for name, _, _ in expectations.ALL])
def test_ns3s_expectation(name, expected, check):
    assert [name, expected, True, check(PROGRAM)] in stored.load('expectations')['numbers']


# ---- CoDel

@built
def test_codel_drops_what_the_pseudocode_drops():
    """What the program drops in a run, the model's queue drops before a link by itself, and the RFC's pseudocode in doubles."""
    run = codel.run_of(codel.text_of('2M', 1, '20s'), PROGRAM)
    numbers, rate = (10 * codel.MS, codel.INTERVAL, codel.MAXPACKET), run.scenario.links[0].rate
    ours = codel.drops_at_link(codel.OfModel(*numbers), run.offered, rate)
    assert len(ours) > 10
    assert [time for time, _ in ours if time < run.scenario.end] == run.drops
    assert codel.drops_at_link(codel.Pseudocode(*numbers), run.offered, rate) == ours


def test_a_control_law_that_is_other_is_seen(monkeypatch):
    """With Linux's first Newton step the third drop comes 50 ms after the second."""
    right = codel.control_law('RFC 8289')
    assert codel.control_law() == right
    monkeypatch.setattr(codel.Pseudocode, 'control_law', lambda self, t, count: t + self.interval * {1: 1, 2: .5}.get(count, count**-.5))
    wrong = codel.control_law('RFC 8289')
    assert wrong[:2] == right[:2]
    assert wrong[2] < right[2]
    assert codel.beside([(time, 0) for time in right], [(time, 0) for time in wrong])['first other'][0] == 3


def test_an_absent_queue_keeps_its_numbers():
    before = stored.load('codel')
    numbers = copy.deepcopy(before['numbers'])
    for row in numbers['runs']:
        del row['ns-3']
    del numbers['control law']['ns-3']
    peers = validate.keep_absent({'Linux': '6.9'}, numbers, before)
    assert peers == {'Linux': '6.9', 'ns-3': f'{before["peers"]["ns-3"]} of {before["date"]}'}
    assert numbers == before['numbers']


# ---- ns-2's rules

def sends_of(case, sender):
    net = rules.Logged(case)
    if sender:
        flow = net.flows[0]
        net.ends[0] = ns2_sender.Ns2Sender(flow.mss, flow.segments, flow.rwnd, flow.newreno, flow.iw10, frozenset())
    return net.run().sends


@pytest.mark.parametrize('newreno', [False, True])
def test_with_all_switches_off_it_is_the_models_sender(newreno):
    for number in range(12):
        case = rules.drawn(newreno, number)
        assert sends_of(case, True) == sends_of(case, False), number


def test_each_switch_is_one_that_the_sender_or_the_net_asks_for():
    folder = os.path.dirname(ns2_sender.__file__)
    texts = ''.join(open(os.path.join(folder, name), encoding='utf-8').read() for name in ('ns2_sender.py', 'rules.py'))
    for name in ns2_sender.SWITCHES:
        assert texts.count(f"'{name}'") >= 2, name


def test_the_window_of_ns2s_sender_is_the_models():
    sender = ns2_sender.Ns2Sender(1000, 99, 20_000, False, False, ns2_sender.ALL)
    assert sender.w == Sender(1000, 99, 20_000).cwnd / 1000 == 4
    assert sender.on_start(0) == [0, 1000, 2000, 3000]


@pytest.mark.parametrize('number, kept', [(0, 0), (32_767, 32_767), (32_768, -32_768), (-40_000, 25_536), (65_536, 0)])
def test_16_bits(number, kept):
    assert ns2_sender.of_16_bits(number) == kept


def test_most_drawn_scenarios_are_the_same_in_ns2():
    for name in 'Reno', 'NewReno':
        rows = stored.load('rules')['numbers'][name]
        assert len(rows) == rules.COUNT
        assert sum(row['ruled'] for row in rows) >= .9 * len(rows)
        assert all(row['ruled'] for row in stored.load('rules')['numbers'][f'Fall and Floyd, {name}'])


def test_sends_that_differ_are_seen():
    sends = [(0, 0), (1000, 1), (2000, 2)]
    assert rules.same(sends, [(0, 0), (1000, 1), (12_000, 2)])
    assert rules.first_other(sends, [(0, 0), (1000, 1), (12_001, 2)]) == 2
    assert rules.first_other(sends, [(0, 0), (1000, 2), (2000, 1)]) == 1
    assert rules.first_other(sends, sends[:2]) == 2
