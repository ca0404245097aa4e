"""Making a scenario smaller, one thing at a time, for showing where two programs differ."""
from copy import deepcopy

from tcpsim_model.scenario import ROUTER
from tcpsim_model.variants import FIELDS


def kept(records, dropped):
    """The records that stay, and the new number of each by its old one."""
    stay = [number for number in range(len(records)) if number not in dropped]
    return [records[number] for number in stay], {old: new for new, old in enumerate(stay)}


def without(s, nodes=(), flows=()):
    """The scenario without these nodes and flows, and without what hangs on them."""
    s = deepcopy(s)
    cut = {n for n, link in enumerate(s.links) if {link.source, link.to} & set(nodes)}
    s.routes = [r for r in s.routes if r[0] not in nodes and r[1] not in nodes and r[2] not in cut]
    s.flows, _ = kept(s.flows, flows)
    s.links, link = kept(s.links, cut)
    s.nodes, node = kept(s.nodes, nodes)
    for k in s.links:
        k.source, k.to = node[k.source], node[k.to]
    for f in s.flows:
        f.sender, f.receiver = node[f.sender], node[f.receiver]
    s.routes = sorted((node[r], node[d], link[k]) for r, d, k in s.routes)
    return s


def changed(s, records, number, **fields):
    s = deepcopy(s)
    record = getattr(s, records)[number]
    for name, value in fields.items():
        setattr(record, name, value)
    return s


def smaller(s):
    """Scenarios that are a little smaller or simpler; some of them are refused."""
    if len(s.flows) > 1:
        for number, flow in enumerate(s.flows):
            yield without(s, {flow.sender, flow.receiver}, {number})
    for node, kind in enumerate(s.nodes):
        if kind == ROUTER:
            yield without(s, {node})
    for number, flow in enumerate(s.flows):
        for segments in {flow.segments // 2, flow.segments - 1} - {0}:
            yield changed(s, 'flows', number, segments=segments)
        if flow.start:
            yield changed(s, 'flows', number, start=0)
        if flow.delack:
            yield changed(s, 'flows', number, delack=0)
        for field in (it for it in reversed(FIELDS) if getattr(flow, it)):
            yield changed(s, 'flows', number, **{field: False})
    for number, link in enumerate(s.links):
        if link.lose:
            yield changed(s, 'links', number, lose=[])
            yield changed(s, 'links', number, lose=link.lose[:-1])
            yield changed(s, 'links', number, lose=link.lose[1:])
        if link.codel:
            yield changed(s, 'links', number, codel=False, target=0, interval=0, maxpacket=0)
