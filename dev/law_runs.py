#!/usr/bin/env python3
"""Looks for a run in which a law of every run (docs/LAWS.md) is false: in the model of python/tcpsim_model, with the mistake of a
wrong table edited in (dev/wrong_tables.txt), over drawn scenarios.

    dev/law_runs.py [--seeds N] [WORD ..]

With words only the tables whose names have them all are run. A line says of each table which of its laws is false first, in which
scenario and at which event. Before, every law is checked over as many scenarios of the model as it is, where all must hold. The
status is 1 where one does not, or where no law of a table was found false.
"""
import argparse
import importlib.abc
import importlib.util
import random
import sys
from collections.abc import Callable
from types import SimpleNamespace

import build
import wrong_tables

MODEL, EVENTS, SEEDS = f'{build.TOP}/python', 3000, 60
MOST_COUNT, MOST_CWND, SECOND = 4_294_967_295, 2**40, 10**9
LAWS: dict[str, Callable] = {}


def law(check):
    """A law, by the name of its function in run_laws: whether it holds of an event."""
    LAWS[check.__name__] = check
    return check


# ---- the model with a mistake

class Edited(importlib.abc.MetaPathFinder, importlib.abc.SourceLoader):
    """Finds the model's modules, some of them with another text."""

    def __init__(self, pairs):
        self.pairs = pairs

    def find_spec(self, fullname, path, target=None):
        if fullname.partition('.')[0] != 'tcpsim_model':
            return None
        return importlib.util.spec_from_loader(fullname, self, is_package='.' not in fullname)

    def get_filename(self, fullname):
        return f'{MODEL}/tcpsim_model/{fullname.partition(".")[2] or "__init__"}.py'

    def get_data(self, path):
        with open(path, encoding='utf-8') as file:
            text = file.read()
        for name, old, new in self.pairs:
            if path.endswith(f'/{name}'):
                if text.count(old) != 1:
                    raise ValueError(f'{old!r} is in {name} {text.count(old)} times, and not once')
                text = text.replace(old, new)
        return text.encode()


def model(pairs=()):
    """The model's modules, with these changes."""
    for name in [it for it in sys.modules if it.partition('.')[0] == 'tcpsim_model']:
        del sys.modules[name]
    finder = Edited(pairs)
    sys.meta_path.insert(0, finder)
    try:
        return SimpleNamespace(**{it: importlib.import_module(f'tcpsim_model.{it}') for it in ('simulate', 'nets', 'queues')})
    finally:
        sys.meta_path.remove(finder)


# ---- what is seen of an event

def fields(it):
    return SimpleNamespace(**{name: getattr(it, name) for name in type(it).__slots__})


def port_seen(net, node, port):
    queue = port.queue
    codel = fields(queue) if hasattr(queue, 'first_above') else None
    return SimpleNamespace(number=port.number, rate=port.rate, delay=port.delay, to=port.to, lose=port.lose, offered=port.offered,
                           sent=port.sent, free=net.timers[node].get(port.timer) if port.busy else None, cells=list(queue.entries),
                           capacity=queue.capacity, codel=codel)


def end_seen(end):
    if end is None:
        return None
    seen = fields(end)
    if hasattr(end, 'held'):
        seen.held = set(end.held)
    return seen


def watched(simulate):
    """A network that keeps what it is told to send, and what becomes of packets."""
    network: type = simulate.Network

    class Watched(network):           # that of the model as it is, or with a mistake
        def at_sender(self, node, now, numbers):
            self.row = list(numbers)
            return super().at_sender(node, now, self.row)

        def drop(self, reason, port, packet, acts):
            self.told.append((reason, port.number, packet))
            super().drop(reason, port, packet, acts)

        def send(self, port, packet, now, acts):
            self.told.append(('sent', port.number, packet))
            super().send(port, packet, now, acts)
    return Watched


def events(simulate, scenario, most=EVENTS):
    """Of each event of a run what it was and what it did."""
    net = watched(simulate)(scenario)
    arrived = [0] * len(scenario.links)
    flows = {node: number for number, flow in enumerate(scenario.flows) for node in (flow.sender, flow.receiver)}
    for _ in range(most):
        due = net.due()
        if due is None:
            return
        now, node, source, number, packet = due
        old, f = [port_seen(net, node, it) for it in net.own_ports[node]], end_seen(net.ends[node])
        net.told, net.row = [], []
        net.step()
        if source:
            arrived[source - 1] += 1
        kind = ('ack' if packet.is_ack else 'data') if source else ('start', 'rto', 'delack', 'free')[min(number, 3)]
        yield SimpleNamespace(
            net=net, now=now, node=node, source=source, number=number, kind=kind, packet=packet, f=f, g=end_seen(net.ends[node]), sent=net.row,
            flow=flows.get(node), arrived=arrived, start=simulate.START, rto=simulate.RTO, delack=simulate.DELACK, Packet=simulate.Packet,
            is_sender=net.kinds[node] == simulate.SENDER, is_router=net.kinds[node] == simulate.ROUTER,
            ports=[(a, b, [it for it in net.told if it[1] == a.number])
                   for a, b in zip(old, (port_seen(net, node, it) for it in net.own_ports[node]))])


def is_new(e):
    return e.kind == 'ack' and e.packet.number > e.f.una


def is_duplicate(e):
    return e.kind == 'ack' and e.packet.number == e.f.una < e.f.nxt


def half_of(count, f):
    return max(count // 2, 2 * f.mss)


def is_past(f):
    return not f.newreno or f.recover is None or f.recover < f.una


def of_sender(check):
    """A law of events at a sender."""
    def checked(e):
        return not e.is_sender or check(e, e.f, e.g)
    checked.__name__ = check.__name__
    return law(checked)


def of_link(check):
    """A law of each link of the event's node: before, after, and what was told of it."""
    def checked(e):
        return all(check(e, *it) for it in e.ports)
    checked.__name__ = check.__name__
    return law(checked)


# ---- senders

def first_window(mss, iw10):
    if iw10:
        return min(10 * mss, max(2 * mss, 14_600))
    return 2 * mss if mss > 2190 else 3 * mss if mss > 1095 else 4 * mss


@of_sender
def flows_begin_afresh(e, f, g):
    flow = e.net.scenario.flows[e.flow]
    begun = (0, 0, 0, first_window(flow.mss, flow.iw10), flow.rwnd, 0, 0, False, None, None, None, SECOND, None, False)
    return e.kind != 'start' or begun == (f.una, f.nxt, f.high, f.cwnd, f.ssthresh, f.dups, f.lt, f.recovery, f.recover, f.timing, f.srtt,
                                          f.rto, f.deadline, f.resent)


@of_sender
def flows_stay_as_stated(e, f, g):
    flow = e.net.scenario.flows[e.flow]
    return (g.mss, g.total, g.rwnd, g.newreno) == (flow.mss, flow.mss * flow.segments, flow.rwnd, flow.newreno)


@of_sender
def no_flow_hangs(e, f, g):
    return e.start in e.net.timers[e.node] or g.una >= g.total or (g.una < g.nxt and g.deadline is not None)


@of_sender
def sent_fits_the_receivers_window(e, f, g):
    return g.high <= g.una + g.rwnd


@of_sender
def timers_run_while_bytes_are_in_flight(e, f, g):
    return (g.deadline is not None) == (g.una < g.nxt) and e.net.timers[e.node].get(e.rto) == g.deadline and SECOND <= g.rto <= 60 * SECOND


@of_sender
def new_segments_fit_the_windows(e, f, g):
    early = is_duplicate(e) and not f.recovery and f.dups < 2
    return g.high == f.high or g.high <= g.una + min(g.cwnd, g.rwnd) or (early and g.high <= g.una + min(g.cwnd + 2 * g.mss, g.rwnd))


@of_sender
def complete_flows_are_silent(e, f, g):
    return f.una != f.total or (not e.sent and vars(f) == vars(g))


@of_sender
def timers_end_after_rto(e, f, g):
    return g.deadline in (None, f.deadline, e.now + g.rto)


@of_sender
def rto_doubles_until_a_sample(e, f, g):
    if e.kind == 'rto':
        return g.rto == min(2 * f.rto, 60 * SECOND)
    return (e.source and f.timing is not None and e.packet.number >= f.timing[0]) or g.rto == f.rto


@of_sender
def nothing_resent_is_timed(e, f, g):
    return not any(x < f.high for x in e.sent) or g.timing is None or (f.high < g.timing[0] and g.timing[1] == e.now)


@of_sender
def timeouts_are_answered(e, f, g):
    return e.kind != 'rto' or (e.sent == [f.una] and g.nxt == f.una + f.mss and g.cwnd == f.mss and g.resent and not g.recovery
                               and g.ssthresh == (f.ssthresh if f.resent else half_of(f.nxt - f.una, f)))


@of_sender
def third_duplicates_are_answered(e, f, g):
    third = is_duplicate(e) and f.dups == 2 and is_past(f)
    if is_duplicate(e) and f.dups < MOST_COUNT and g.dups != f.dups + 1 or is_new(e) and not g.recovery and g.dups:
        return False
    if third and not f.recovery and not g.recovery:
        return False
    threshold = half_of(f.nxt - f.una - f.lt, f)
    return f.recovery or not g.recovery or (third and g.ssthresh == threshold and g.cwnd == threshold + 3 * f.mss and e.sent == [f.una])


@of_sender
def ssthresh_stays_without_a_loss(e, f, g):
    return e.kind == 'rto' or (not f.recovery and g.recovery) or g.ssthresh == f.ssthresh


@of_sender
def windows_grow_by_new_acknowledgements(e, f, g):
    if f.recovery or g.recovery or e.kind == 'rto':
        return True
    if not is_new(e):
        return g.cwnd == f.cwnd
    more = min(e.packet.number - f.una, f.mss) if f.cwnd < f.ssthresh else max(f.mss * f.mss // f.cwnd, 1)
    return g.cwnd == min(f.cwnd + more, MOST_CWND)


@of_sender
def recovery_is_kept(e, f, g):
    if not f.recovery:
        return True
    if is_duplicate(e):
        return g.cwnd == min(f.cwnd + f.mss, MOST_CWND) and g.recovery
    if not is_new(e):
        return True
    ack = e.packet.number
    if not f.newreno or f.recover is None or f.recover <= ack:
        return g.cwnd == f.ssthresh and not g.recovery
    return g.cwnd == max(f.cwnd + f.mss - (ack - f.una), f.mss) and g.recovery and ack in e.sent


@of_sender
def windows_are_filled(e, f, g):
    goes_on = e.kind == 'start' or is_new(e) and not f.recovery
    return not goes_on or min(g.total, g.una + min(g.cwnd, g.rwnd)) < g.nxt + g.mss


@of_sender
def timers_are_restarted(e, f, g):
    return not is_new(e) or f.recovery or g.una >= g.nxt or g.deadline == e.now + g.rto


@of_sender
def round_trips_are_measured(e, f, g):
    if not is_new(e) or f.timing is None or f.timing[0] > e.packet.number:
        return True
    r = e.now - f.timing[1]
    srtt, rttvar = (r, r // 2) if f.srtt is None else ((7 * f.srtt + r) // 8, (3 * f.rttvar + abs(f.srtt - r)) // 4)
    return (g.srtt, g.rttvar) == (srtt, rttvar) and g.rto == min(max(srtt + max(1, 4 * rttvar), SECOND), 60 * SECOND)


def let_go(f, first, end):
    """The new segment that may go, if one may."""
    return [first] if first == f.high and first < f.total and first + f.mss <= end else []


def goes_in_turn(first, e, g):
    return e.sent == [first + i * g.mss for i in range(len(e.sent))] and g.nxt == first + len(e.sent) * g.mss


@of_sender
def acknowledgements_are_taken(e, f, g):
    if e.kind == 'start':
        return goes_in_turn(f.nxt, e, g)
    if e.kind != 'ack' or is_duplicate(e):
        return True
    if not is_new(e):
        return not e.sent and vars(f) == vars(g)
    ack = e.packet.number
    first = max(f.nxt, ack)
    right = e.sent == [ack, *let_go(f, first, ack + min(g.cwnd, f.rwnd))] if g.recovery else goes_in_turn(first, e, g)
    return (g.una, g.lt, g.resent) == (ack, 0, False) and right


@of_sender
def duplicates_let_segments_go(e, f, g):
    if not is_duplicate(e):
        return True
    if f.recovery:
        right = e.sent == let_go(f, f.nxt, f.una + min(g.cwnd, f.rwnd))
    elif f.dups < 2:
        right = e.sent == let_go(f, f.nxt, f.una + min(f.cwnd + 2 * f.mss, f.rwnd)) and g.lt == f.lt + len(e.sent) * f.mss
    else:
        right = g.recovery or not e.sent
    return right and g.deadline == f.deadline


@of_sender
def losses_are_marked(e, f, g):
    if e.kind == 'rto':
        return (g.dups, g.lt, g.timing, g.deadline) == (0, 0, None, e.now + g.rto) and g.recover == (f.high if f.newreno else f.recover)
    if not f.recovery and g.recovery:
        return not f.newreno or (g.recover == f.high and not g.partial)
    if f.recovery and is_new(e) and f.newreno and f.recover is not None and e.packet.number < f.recover:
        return g.partial and g.deadline == (f.deadline if f.partial else e.now + g.rto) and g.recover == f.recover
    return g.recover == f.recover


@of_sender
def segments_are_timed(e, f, g):
    measured = is_new(e) and f.timing is not None and f.timing[0] <= e.packet.number
    if e.sent[:1] == [f.high] and (f.timing is None or measured) and g.timing != (f.high + f.mss, e.now):
        return False
    return measured or (g.srtt, g.rttvar) == (f.srtt, f.rttvar)


# ---- what nodes offer

def is_offered(packets, old, new, told):
    """Whether a link is offered these packets and no others, in their order: each is turned away, or joins those that wait."""
    away = [packet for what, _, packet in told if what in ('lost', 'full')]
    left = [packet for what, _, packet in told if what not in ('lost', 'full')] + [packet for packet, _ in new.cells]
    before = [packet for packet, _ in old.cells]
    joined = left[len(before):]
    merged = {(0, 0)}       # how many of those turned away, and of those that joined, the packets so far can be
    for packet in packets:
        merged = {it for a, j in merged for it in ((a + 1, j),) * (away[a:a + 1] == [packet]) + ((a, j + 1),) * (joined[j:j + 1] == [packet])}
    return left[:len(before)] == before and (len(away), len(joined)) in merged and new.offered == old.offered + len(packets)


@law
def senders_offer_their_segments(e):
    if not e.is_sender or e.kind == 'free':
        return True
    return is_offered([e.Packet(e.flow, False, x, e.net.scenario.flows[e.flow].mss + 40) for x in e.sent], *e.ports[0])


def exit_link(e):
    """The link of a router's route for the packet that came."""
    flow = e.net.scenario.flows[e.packet.flow]
    return {(router, to): link for router, to, link in e.net.scenario.routes}[e.node, flow.sender if e.packet.is_ack else flow.receiver]


@law
def routers_forward_what_comes(e):
    return not e.is_router or not e.source or all(is_offered([e.packet] if it[0].number == exit_link(e) else [], *it) for it in e.ports)


@law
def routers_stay_as_stated(e):
    return not e.is_router or not e.source or all(new.offered == old.offered + (old.number == exit_link(e)) for old, new, _ in e.ports)


def is_received(r, seq):
    return seq % r.mss == 0 and (seq < r.next or seq in r.held)


@law
def receivers_acknowledge_what_comes(e):
    if e.is_sender or e.is_router or e.kind not in ('data', 'delack'):
        return True
    r, a = e.f, e.g
    flow = e.net.scenario.flows[e.flow]
    answer = [e.Packet(e.flow, True, a.next, 40)]
    if e.kind == 'delack':
        return is_offered(answer, *e.ports[0]) and a.next == r.next and a.timer is None
    seen = {e.packet.number, a.next - a.mss, a.next, r.next} | a.held | r.held
    if any(is_received(a, x) != (x == e.packet.number or is_received(r, x)) for x in seen if x >= 0):
        return False
    if a.timer is None:
        return is_offered(answer, *e.ports[0])
    return is_offered([], *e.ports[0]) and a.timer == e.now + flow.delack and r.timer is None and e.packet.number == r.next and not r.held


# ---- links

@of_link
def links_stay_as_stated(e, old, new, told):
    link = e.net.scenario.links[new.number]
    queue = () if new.codel is None else (new.codel.target, new.codel.interval, new.codel.maxpacket)
    return (new.to, new.rate, new.delay, new.lose, new.capacity, queue) == (
        link.to, link.rate, link.delay, frozenset(link.lose), link.capacity, (link.target, link.interval, link.maxpacket) if link.codel else ())


@of_link
def links_turn_away_by_rule(e, old, new, told):
    lost = sum(number in old.lose for number in range(old.offered + 1, new.offered + 1))
    return sum(it[0] == 'lost' for it in told) == lost and (all(it[0] != 'full' for it in told) or len(new.cells) == new.capacity)


@of_link
def links_take_their_time(e, old, new, told):
    for what, _, packet in told:
        if what == 'sent':
            time = -(-packet.bytes * 8 * SECOND // old.rate)
            if new.free != e.now + time or (e.now + time + old.delay, old.to, old.number + 1, new.sent, packet) not in e.net.pending:
                return False
    return True


@of_link
def links_send_one_by_one(e, old, new, told):
    sent = sum(it[0] == 'sent' for it in told)
    return sent <= 1 and (old.free in (None, e.now) or (sent == 0 and new.free == old.free))


@of_link
def idle_links_are_empty(e, old, new, told):
    return (new.free is not None or not new.cells) and len(new.cells) <= new.capacity


@of_link
def packets_leave_in_turn(e, old, new, told):
    left = [packet for what, _, packet in told if what not in ('lost', 'full')] + [packet for packet, _ in new.cells]
    return left[:len(old.cells)] == [packet for packet, _ in old.cells]


@of_link
def packets_wait_from_offer_to_sending(e, old, new, told):
    gone = [packet for what, _, packet in told if what not in ('lost', 'full')]
    cells = old.cells + [(packet, e.now) for packet in (gone + [packet for packet, _ in new.cells])[len(old.cells):]]
    left, joined = cells[:len(gone)], cells[len(old.cells):]
    if cells != left + new.cells or [packet for packet, _ in left] != gone:
        return False
    if old.free is None:
        return left == joined[:1] and [it[2] for it in told if it[0] == 'sent'] == [packet for packet, _ in joined[:1]]
    return old.free == e.now or not left


@of_link
def drop_tail_sends_all_that_entered(e, old, new, told):
    return old.codel is not None or all(it[0] != 'codel' for it in told)


@law
def packets_arrive_once(e):
    if e.source and e.number != e.arrived[e.source - 1]:
        return False
    pending = {it[:4] for it in e.net.pending if it[2]}
    return all(sorted(it[3] for it in pending if it[2] == b.number + 1) == list(range(e.arrived[b.number] + 1, b.sent + 1)) for _, b, _ in e.ports)


# ---- CoDel

def gap_of(interval, count):
    """The greatest d with d * d * count <= interval * interval."""
    d = int(interval / count**0.5) + 2
    while d * d * count > interval * interval:
        d -= 1
    return d


def due_behind(s, drops):
    due = s.drop_next
    for j in range(drops):
        due += gap_of(s.interval, min(s.count + j + 1, MOST_COUNT))
    return due


def is_above(s, now, cells, k):
    return now - cells[k][1] >= s.target and sum(packet.bytes for packet, _ in cells[k + 1:]) > s.maxpacket


def may_drop(s, now, cells, k):
    first = s.first_above
    for j in range(k + 1):
        if j >= len(cells) or not is_above(s, now, cells, j):
            first, may = None, False
        else:
            first, may = (now + s.interval, False) if first is None else (first, first <= now)
    return may


def of_take(check):
    """A law of each take by which CoDel gives a packet of those that waited: how many it drops, what waited, before and after."""
    def checked(e, old, new, told):
        if old.codel is None or not old.cells or all(it[0] != 'sent' for it in told):
            return True
        return check(e.now, [it[2] for it in told if it[0] == 'codel'], old.cells, old.codel, new.codel)
    checked.__name__ = check.__name__
    return of_link(checked)


@of_take
def codel_drops_for_cause(now, drops, cells, s, q):
    return all(k < len(cells) and packet == cells[k][0] and is_above(s, now, cells, k) and s.first_above is not None and s.first_above <= now
               for k, packet in enumerate(drops))


@of_take
def codel_drops_on_time(now, drops, cells, s, q):
    k = len(drops)
    return not s.dropping or (all(due_behind(s, j) <= now for j in range(k)) and (not q.dropping or q.drop_next == due_behind(s, k))
                              and (not may_drop(s, now, cells, k) or now < due_behind(s, k)))


@of_take
def codel_drops_once_the_interval_is_over(now, drops, cells, s, q):
    k = len(drops)
    if s.dropping:
        return k >= len(cells) or is_above(s, now, cells, k) or (not q.dropping and q.first_above is None)
    if not is_above(s, now, cells, 0):
        return (q.first_above, q.dropping, k) == (None, False, 0)
    if s.first_above is None or now < s.first_above:
        return (q.first_above, q.dropping, k) == (now + s.interval if s.first_above is None else s.first_above, False, 0)
    return q.dropping and drops == [cells[0][0]]


@of_take
def codel_counts_its_drops(now, drops, cells, s, q):
    k = len(drops)
    if s.dropping:
        if s.first_above is not None and s.first_above <= now and k < len(cells) and all(is_above(s, now, cells, j) for j in range(k + 1)):
            if not q.dropping or q.first_above != s.first_above:
                return False
        return (q.count, q.lastcount) == (min(s.count + k, MOST_COUNT), s.lastcount) and (q.dropping or q.drop_next == due_behind(s, max(k - 1, 0)))
    if not q.dropping:
        return (q.count, q.lastcount, q.drop_next) == (s.count, s.lastcount, s.drop_next)
    again = max(s.count - s.lastcount, 0)
    count = again if again > 1 and max(now - s.drop_next, 0) < 16 * s.interval else 1
    return (q.count, q.lastcount, q.drop_next) == (count, count, now + gap_of(s.interval, count))


# ---- the runs

def scenario_of(nets, seed):
    pick = random.Random(seed)
    draw = (nets.one_flow, nets.many_flows, nets.slow_queue, lambda pick: nets.one_flow(pick, ('codel',)))[seed % 4]
    return draw(pick)


def first_false(found, names, seeds):
    """The first law of these that is false, the seed of the scenario and the number of the event; None where all hold."""
    for seed in range(seeds):
        for at, e in enumerate(events(found.simulate, scenario_of(found.nets, seed)), 1):
            for name in names:
                if not LAWS[name](e):
                    return name, seed, at
    return None


def main():
    reader = argparse.ArgumentParser(description='Looks for runs of the model in which a law is false.')
    reader.add_argument('--seeds', type=int, default=SEEDS, help=f'how many scenarios are drawn ({SEEDS})')
    reader.add_argument('words', nargs='*', metavar='WORD', help='words of a name (left out: all tables)')
    given = reader.parse_args()
    wrong = first_false(model(), LAWS, given.seeds)
    print(f'without a mistake: {"all laws hold" if wrong is None else "{} is false, seed {}, event {}".format(*wrong)}', flush=True)
    failed = int(wrong is not None)
    for table in wrong_tables.tables():
        if table.model and all(word in table.name for word in given.words):
            names = [it for it in table.laws if it in LAWS]
            wrong = first_false(model(table.model), names, given.seeds)
            print(f'{table.name}: {"no law was found false" if wrong is None else "{} is false, seed {}, event {}".format(*wrong)}', flush=True)
            failed += wrong is None
    return 1 if failed else 0


if __name__ == '__main__':
    sys.exit(main())
