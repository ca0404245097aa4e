"""Tests of tcpsim/critical_path.py: the path of every flow of every example, and of drawn scenarios, is that of tcpsim_model/tagged.py,
which tags each event's cause while the model runs, event by event and part by part. Usage: python/tests/test_critical_path.py
[SEED COUNT] compares as many drawn scenarios; pytest some dozens."""
import collections
import os
import random
import sys

import pytest

from clone import EXAMPLES, NAMES, example, read
from tcpsim.breakdown import text_alone
from tcpsim.critical_path import DELAY, PROPAGATION, QUEUE, SERIALIZATION, TIMER, TRIPS, Loss, Part, critical_paths
from tcpsim.scenario.text import Scenario, Unreadable
from tcpsim_model import nets, simulate, tagged
from tcpsim_model.text import assemble, disassemble

DRAWN = 60
MOST_EVENTS = 60_000
TRIP_NAMES = dict(zip(('ss', 'ca', 'fr', tagged.AGAIN), TRIPS))


def tags_of(model):
    """The model's net with its tags once it has run, and its trace."""
    net, lines = tagged.TaggedNetwork(model), []
    while (line := net.step()) is not None and net.position <= MOST_EVENTS:
        lines.append(simulate.line_text(net.position, line)[:-1])
    return net, lines + [f'end {net.position}'] * (line is None)


def parts_by_model(scenario, sums):
    """The sums of a path that the model has, as tcpsim/critical_path.py names them; and its round trips."""
    links, nodes, flows = ([it.name for it in things] for things in (scenario.links, scenario.nodes, scenario.flows))
    parts, trips = {}, {}
    for (kind, *where), ns in sums.items():
        if kind == tagged.TRIP:
            trips[TRIP_NAMES[where[0]]] = ns
        elif kind == tagged.QUEUE:
            parts[QUEUE, links[where[0]], flows[where[1]], None] = ns
        elif kind == tagged.TIMER:
            parts[TIMER, nodes[where[0]], None, where[1]] = ns
        elif kind == tagged.DELAY:
            parts[DELAY, nodes[where[0]], None, None] = ns
        else:
            parts[{tagged.SERIALIZATION: SERIALIZATION, tagged.PROPAGATION: PROPAGATION}[kind], links[where[0]], None, None] = ns
    return parts, trips


def same(scenario, path, una, tagged_event):
    """Sees that a path is that of the model's event, which acknowledged all below una."""
    parts, trips = parts_by_model(scenario, tagged_event.sums)
    assert [event.line for event in path.events] == tagged_event.path()
    assert path.parts() == parts and path.trips == trips and path.acknowledged == una


def awaited_by_model(net, scenario, number):
    """What a flow can wait for where the model's run ends, in words: of a packet each place where one of the sort is."""
    flow = scenario.flows[number]
    sender, names = net.ends[flow.sender], [link.name for link in scenario.links]
    if simulate.START in net.timers[flow.sender]:
        return {f'its start at {flow.start / 1e9:.9f} s'}
    places = [(packet, f'in the queue of {names[port.number]}') for port in net.ports for packet, _ in port.queue.entries]
    for time, node, source, _, packet in net.pending:
        if source:
            port = net.ports[source - 1]
            sends = port.timer in net.timers[scenario.links[source - 1].source] and time == net.last[source - 1][2] + scenario.links[source - 1].delay
            places.append((packet, f'{"sent by" if sends else "under way on"} {names[source - 1]}'))
    own = [(packet, where) for packet, where in places if packet.flow == number]
    acks = {f'acknowledgement {packet.number}, {where}' for packet, where in own if packet.is_ack and packet.number > sender.una}
    if acks:
        return acks
    if net.ends[flow.receiver].timer is not None and net.ends[flow.receiver].next > sender.una:
        return {f'the delayed acknowledgement, due at {net.ends[flow.receiver].timer / 1e9:.9f} s'}
    copies = {f'segment {packet.number}, {where}' for packet, where in own if not packet.is_ack and packet.number == sender.una}
    more = f', or for duplicates; packets in the net: {len(own)}' if own else ''
    return copies or {f'its retransmission timer, due at {sender.deadline / 1e9:.9f} s{more}'}


def compare(text, model):
    """Every flow's path, of the trace and of the model's tags; counts the flows that are complete and that are not."""
    net, lines = tags_of(model)
    scenario = Scenario(text)
    walk = critical_paths(scenario, iter(lines))
    found = collections.Counter()
    assert net.position > MOST_EVENTS or lines == ''.join(simulate.trace(model)).splitlines()     # the tags change nothing
    first = critical_paths(scenario, iter(lines), to=0, stops=True)
    for number, flow in enumerate(scenario.flows):
        path, tags = walk.path(number), net.acknowledged[number]
        if tags:
            same(scenario, path, *tags[-1])
            same(scenario, first.path(number), *tags[0])
            assert path.is_whole == (tags[-1][0] == flow.mss * flow.segments)
        assert sum(path.parts().values()) == path.time == (tags[-1][1].time - flow.start if tags else 0)
        assert gapless(path)
        if not path.is_whole:
            assert walk.awaited(number) in awaited_by_model(net, scenario, number)
        found['complete' if path.is_whole else 'incomplete' if tags else 'without an acknowledgement'] += 1
        for part in path.parts():
            found[part.kind if part.kind != QUEUE else 'own queue' if part.behind == flow.name else 'queue behind others'] += 1
        found.update(f'{trip} trips' for trip in path.trips)
    return found


def gapless(path):
    """Whether each span begins where the one before it ended, from the path's begin to its end."""
    at = path.begin
    for part, begin, end in path.spans():
        if begin != at or end < begin:
            return False
        at = end
    return at == path.end


def drawn(seed):
    """A drawn scenario: its text, and the model's."""
    pick = random.Random(seed)
    draw = pick.choice((nets.one_flow, nets.many_flows, nets.many_flows, nets.slow_queue))
    scenario = draw(pick, ('droptail', 'codel')) if draw is nets.one_flow else draw(pick)
    text = disassemble(scenario)
    return (text.decode() if isinstance(text, bytes) else text), scenario


@pytest.mark.parametrize('name', NAMES)
def test_the_paths_of_an_example_are_those_that_the_model_tagged(name):
    compare(example(name)[0], assemble(read(os.path.join(EXAMPLES, f'{name}.txt'))))


def test_paths_of_drawn_scenarios_are_those_that_the_model_tagged():
    found = collections.Counter()
    for seed in range(DRAWN):
        found += compare(*drawn(seed))
    assert len(found) == 13, found


# ---- worked by hand

# A segment takes 1.04 ms, an acknowledgement 0.04 ms, each way 5 ms.
NET = '''sim 10000000000
node s sender
node r receiver
link a s r 8000000 5000000 droptail {capacity}
link b r s 8000000 5000000 droptail 10
flow f s r 1000 {segments} 0 64000 {delack} {variant}
'''
MS = 10**6


def walk_of(capacity=10, segments=1, delack=0, lose=(), variant=''):
    """The walk through a run of two nodes, by the model."""
    return run_with(NET.format(capacity=capacity, segments=segments, delack=delack, variant=variant) + ''.join(f'lose {it}\n' for it in lose))


def test_one_segment_on_an_idle_path_takes_what_the_formula_says():
    walk, _ = walk_of()
    assert walk.path(0).parts() == {Part(PROPAGATION, 'a'): 5 * MS, Part(PROPAGATION, 'b'): 5 * MS, Part(SERIALIZATION, 'a'): 1_040_000,
                                    Part(SERIALIZATION, 'b'): 40_000}
    assert [(event.line, event.kind, event.at) for event in walk.path(0).events] == [(1, 'start', 's'), (3, 'data', 'r'), (5, 'ack', 's')]


def test_the_delayed_acknowledgement_is_the_receivers():
    walk, _ = walk_of(delack=200 * MS)
    assert walk.path(0).parts()[Part(DELAY, 'r')] == 200 * MS
    assert [event.kind for event in walk.path(0).events] == ['start', 'data', 'delack', 'ack']


def test_four_segments_wait_behind_each_other():
    walk, _ = walk_of(segments=4)
    assert walk.path(0).parts()[Part(QUEUE, 'a', 'f')] == 3 * 1_040_000


def test_a_timer_is_told_with_its_loss():
    """The only segment is lost three times: the timer runs for 1, 2 and 4 s."""
    walk, lines = walk_of(lose=['a 1', 'a 2', 'a 3'])
    path = walk.path(0)
    assert [path.parts()[Part(TIMER, 's', doubled=doubled)] for doubled in (0, 1, 2)] == [10**9, 2 * 10**9, 4 * 10**9]
    assert [timeout.loss for timeout in path.timeouts] == [Loss('segment 0', 'a', 'lost', line) for line in (1, 2, 3)]
    assert all(lines[timeout.loss.line - 1].endswith('drop=lost:0:0') for timeout in path.timeouts)
    assert [timeout.set_line for timeout in path.timeouts] == [1, 2, 3] and [timeout.line for timeout in path.timeouts] == [2, 3, 4]
    assert {timeout.cause for timeout in path.timeouts} == {'a loss was left to the timer'}
    assert 'too few were behind it (0 segments)' in path.timeouts[0].found


def test_a_lost_acknowledgement_is_the_loss():
    path = walk_of(lose=['b 1'])[0].path(0)
    assert [(timeout.loss[:3], timeout.cause) for timeout in path.timeouts] == [(('ack 1000', 'b', 'lost'), 'an acknowledgement was lost')]


def test_a_retransmission_that_is_lost_is_the_loss():
    """Of eight segments the first is lost, and what the third duplicate sends again."""
    path = walk_of(segments=8, lose=['a 1', 'a 7'])[0].path(0)
    timeout, = path.timeouts
    assert timeout.cause == 'a retransmission was lost' and timeout.loss[:3] == ('segment 0', 'a', 'lost')


def run_with(text, **given):
    """The walk through the model's run of a text, and the trace's lines."""
    lines = ''.join(simulate.trace(assemble(text.encode()))).splitlines()
    return critical_paths(Scenario(text), iter(lines), **given), lines


def test_nothing_is_lost_where_the_way_is_longer_than_the_timer():
    """It takes 1.4 s there and back, and the timer 1 s. The first sending is acknowledged: no timer is on the path."""
    walk, _ = run_with(NET.format(capacity=10, segments=1, delack=0, variant='').replace(' 5000000 ', ' 700000000 '))
    assert walk.path(0).timeouts == [] and [timeout.loss for timeout in walk.timeouts.values()] == [None]
    assert [timeout.cause for timeout in walk.timeouts.values()] == ['the round trip took longer']


def test_the_timer_is_set_by_the_event_that_the_tables_name_at_equal_times():
    """A new acknowledgement arrives at the moment at which the timer ends, at 1 s. The timer is first, and is set anew to end at 3 s.
    The acknowledgement clears it, and a segment that is sent sets it again, to the same 3 s: rto is 2 s still."""
    delay = (10**9 - 1_040_000 - 40_000) // 2
    walk, lines = run_with(NET.format(capacity=10, segments=4, delack=0, variant='').replace(' 5000000 ', f' {delay} ') +
                           ''.join(f'lose a {number}\n' for number in (2, 3, 4, 6, 7)))
    rto, ack = (next(n for n, line in enumerate(lines, 1) if f' {kind} 0 ' in line) for kind in ('rto', 'ack'))
    assert lines[rto - 1].split()[1] == lines[ack - 1].split()[1] == '1000000000' and ack == rto + 1
    second = list(walk.timeouts.values())[1]
    assert (second.set_line, second.begin, second.end) == (ack, 10**9, 3 * 10**9)


def test_a_path_to_a_byte_ends_where_that_is_acknowledged():
    text, lines = example('a_lost_retransmission')
    scenario = Scenario(text)
    flow, ends = scenario.flows[0], []
    for byte in range(0, flow.mss * flow.segments, flow.mss):
        path = critical_paths(scenario, iter(lines), to=byte).path(0)
        before = [int(line.split('una=')[1].split()[0]) for line in lines[:path.events[-1].line - 1] if 'una=' in line]
        assert path.is_whole and path.acknowledged > byte >= max(before) and gapless(path)
        assert sum(path.parts().values()) == path.time
        ends.append(path.end)
    assert ends == sorted(ends) and len(set(ends)) > 3
    with pytest.raises(Unreadable, match='has the bytes 0 to'):
        critical_paths(scenario, iter(lines), to=flow.mss * flow.segments)


def test_a_part_of_a_trace_has_the_path_to_its_last_acknowledgement():
    text, lines = example('two_timeouts_in_a_row')
    scenario, whole = Scenario(text), critical_paths(Scenario(text), iter(lines)).path(0)
    awaited = []
    for count in range(1, len(lines) - 1):
        walk = critical_paths(scenario, iter(lines[:count]))
        path = walk.path(0)
        acknowledged = [int(line.split('una=')[1].split()[0]) for line in lines[:count] if 'una=' in line][-1]
        assert path.acknowledged == acknowledged and sum(path.parts().values()) == path.time and gapless(path)
        assert path.is_whole == (acknowledged == 10_000) and (path.events == whole.events or not path.is_whole)
        awaited += [] if path.is_whole else [walk.awaited(0)]
    assert awaited[0] == 'segment 0, sent by a'
    assert [words for at, words in enumerate(awaited) if at == 0 or words != awaited[at - 1]][:4] == \
        ['segment 0, sent by a', 'segment 0, under way on a', 'acknowledgement 1000, sent by b', 'acknowledgement 1000, under way on b']
    assert 'its retransmission timer, due at 1.006200000 s' in awaited


@pytest.mark.parametrize('name', NAMES)
def test_a_flow_alone_waits_behind_nobody_else(name):
    """Its text has its paths and nothing else, and the program's rules accept it."""
    scenario = Scenario(example(name)[0])
    for number, flow in enumerate(scenario.flows):
        text = text_alone(scenario, number)
        own, model = Scenario(text), assemble(text.encode())
        assert [it.name for it in own.flows] == [flow.name] and own.end == scenario.end
        assert {it.name for it in own.links} == {scenario.links[link].name for path in scenario.paths[number] for link in path}
        assert {own.links[link].name: lost for link, lost in own.lost.items()} == \
            {scenario.links[link].name: lost for link, lost in scenario.lost.items() if link in sum(scenario.paths[number], [])}
        if flow.segments <= 1000:
            path = critical_paths(own, ''.join(simulate.trace(model)).splitlines()).path(0)
            assert {part.behind for part in path.parts() if part.kind == QUEUE} <= {flow.name} and path.events


def main(seed, count):
    """Compares `count` drawn scenarios, and prints how often there was what."""
    found = collections.Counter()
    for each in range(seed, seed + count):
        try:
            found += compare(*drawn(each))
        except Exception:
            print(f'seed {each}', flush=True)
            raise
    print(count, 'scenarios:', *(f'{number} {what}' for what, number in sorted(found.items())), sep='\n  ')


if __name__ == '__main__':
    main(*map(int, sys.argv[1:] or ('0', '100')))
