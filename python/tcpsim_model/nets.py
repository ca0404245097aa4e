"""Building scenarios: nodes joined by cables, routes by fewest hops; and random ones."""
from collections import deque

from tcpsim_model.scenario import MOST_ROUTER_LINKS, RECEIVER, ROUTER, SENDER, Flow, Link, Scenario
from tcpsim_model.variants import drawn


SERIAL = 1_040_000      # ns that 1,040 bytes take at 8 Mbit/s: waits in a queue are often whole such times


def droptail(capacity):
    return (False, capacity, 0, 0, 0)


def codel(capacity, target, interval, maxpacket):
    return (True, capacity, target, interval, maxpacket)


class Net:
    def __init__(self):
        self.nodes, self.links, self.flows, self.around = [], [], [], []

    def node(self, kind):
        self.nodes.append(kind)
        self.around.append([])
        return len(self.nodes) - 1

    def link(self, source, to, rate, delay, queue, lose=()):
        codel, capacity, target, interval, maxpacket = queue
        self.links.append(Link(source, to, rate, delay, codel, capacity, target, interval, maxpacket, list(lose)))
        self.around[source].append(len(self.links) - 1)
        return len(self.links) - 1

    def cable(self, a, b, rate, delay, queue):
        """A link each way."""
        return self.link(a, b, rate, delay, queue), self.link(b, a, rate, delay, queue)

    def flow(self, at, to, up, down, mss, segments, start=0, rwnd=2**30, delack=0, *variant):
        """A sender on a cable to router `at` and a receiver on a cable to router `to`; `up` and `down`
        are (rate, delay, queue) of the two cables."""
        sender, receiver = self.node(SENDER), self.node(RECEIVER)
        self.cable(sender, at, *up)
        self.cable(receiver, to, *down)
        self.flows.append(Flow(sender, receiver, mss, segments, start, rwnd, delack, *variant))
        return len(self.flows) - 1

    def next_links(self, goal):
        """For each node the first link of a path of fewest hops to `goal` through routers."""
        into: list[list[int]] = [[] for _ in self.nodes]
        for number, link in enumerate(self.links):
            into[link.to].append(number)
        found: dict[int, int | None] = {goal: None}
        queue = deque([goal])
        while queue:
            here = queue.popleft()
            for number in into[here]:
                source = self.links[number].source
                if source not in found:
                    found[source] = number
                    if self.nodes[source] == ROUTER:
                        queue.append(source)
        return found

    def routes(self, every=False):
        """The routes of all flows' paths; or of every router to every end that it can reach."""
        routes = set()
        for flow in self.flows:
            for start, goal in ((flow.sender, flow.receiver), (flow.receiver, flow.sender)):
                hops = self.next_links(goal)
                here = self.links[hops[start]].to
                while here != goal:
                    routes.add((here, goal, hops[here]))
                    here = self.links[hops[here]].to
                if every:
                    routes |= {(node, goal, link) for node, link in hops.items() if self.nodes[node] == ROUTER}
        return sorted(routes)

    def scenario(self, end, every_route=False):
        return Scenario(end, self.nodes, self.links, self.flows, self.routes(every_route))


# Random scenarios.

def any_size(pick, least, most):
    """A number between both, small ones as likely as great ones."""
    low, high = least.bit_length(), most.bit_length()
    bits = pick.randint(low, high)
    return min(max(pick.randint(1 << bits >> 1, 1 << bits), least), most)


def any_queue(pick, kinds):
    capacity = pick.choice((1, 2, 3, 5, 10, 20, 100))
    if pick.choice(kinds) == 'droptail':
        return droptail(capacity)
    target = pick.choice((1, 1, SERIAL, 3 * SERIAL, 5 * 10**6, any_size(pick, 1, 10**9)))
    interval = pick.choice((1, 1, SERIAL, SERIAL, 4 * SERIAL, 20 * SERIAL, min(20 * target, 10**10),
                            any_size(pick, 1, 10**10)))
    maxpacket = pick.choice((1, 1, 40, 540, 1040, 1500, 65535))
    return codel(capacity * pick.choice((1, 10)), target, interval, maxpacket)


def random_cable(pick, kinds, equal):
    """(rate, delay, queue); with `equal` a few values that meet at the same moments."""
    if equal:
        rate, delay = pick.choice((8 * 10**6, 8 * 10**6, 4 * 10**6)), pick.choice((10**6, 2 * 10**6))
        return rate, delay, any_queue(pick, kinds)
    return any_size(pick, 10**4, 10**9), any_size(pick, 1, 10**9), any_queue(pick, kinds)


def random_flow(pick, equal, most_segments):
    """mss, segments, start, rwnd, delack, and the variant"""
    mss = pick.choice((1000, 960)) if equal else any_size(pick, 1, 9000)
    segments = any_size(pick, 1, most_segments)
    start = pick.choice((0, 0, 10**6)) if equal else pick.choice((0, any_size(pick, 1, 10**10)))
    rwnd = min(mss * any_size(pick, 1, 200) + pick.choice((0, 0, pick.randint(0, mss))), 2**30)
    delack = pick.choice((0, 0, 1, 40_000, 10**6, 2 * 10**8, 5 * 10**8))
    return mss, segments, start, rwnd, delack, *drawn(pick)


def random_lose(pick, segments):
    """Rising numbers, dense at times so that timeouts follow one another, or a few in one window."""
    if pick.random() < 0.4:
        return []
    if pick.random() < 0.4:
        first = pick.randint(1, max(segments * 2 // 3, 1))
        return sorted(pick.sample(range(first, first + pick.choice((5, 10, 30))), pick.randint(2, 5)))
    count, most = pick.choice((1, 2, 5, 20, 64)), max(segments, 3) * pick.choice((1, 2))
    return sorted(pick.sample(range(1, most + 1), min(count, most)))


def one_flow(pick, kinds=('droptail',), most_segments=300):
    """A sender and a receiver."""
    net, equal = Net(), pick.random() < 0.3
    ends = [SENDER, RECEIVER]
    pick.shuffle(ends)
    a, b = (net.node(kind) for kind in ends)
    sender, receiver = (a, b) if ends[0] == SENDER else (b, a)
    flow = Flow(sender, receiver, *random_flow(pick, equal, most_segments))
    for source, to in pick.sample(((a, b), (b, a)), 2):
        rate, delay, queue = random_cable(pick, kinds, equal)
        net.link(source, to, rate, delay, queue, random_lose(pick, flow.segments))
    net.flows.append(flow)
    return net.scenario(random_end(pick, flow.start, True))


def random_end(pick, latest_start, long):
    """After the last start; now and then in the midst of the run."""
    if long and pick.random() < 0.7:
        return 10**15
    return latest_start + any_size(pick, 1, 10**pick.randint(1, 12))


def slow_queue(pick):
    """Flows that meet before one slow link with CoDel, all numbers such that packets wait whole steps
    of time: drop states begin, end and begin again, now and then just at the moments asked."""
    net = Net()
    left, right = net.node(ROUTER), net.node(ROUTER)
    target, interval = pick.choice((1, 2, 3, 4)) * SERIAL, pick.choice((1, 2, 4, 8, 20)) * SERIAL
    slow = codel(pick.choice((10, 50, 1000)), target, interval, pick.choice((1, 1040, 2080)))
    net.link(left, right, pick.choice((8, 4, 2)) * 10**6, SERIAL, slow)
    net.link(right, left, 8 * 10**6, SERIAL, droptail(1000))
    for _ in range(pick.choice((1, 2, 4, 8))):
        cable = 8 * 10**pick.choice((6, 7)), pick.choice((1, 2, 5)) * SERIAL, droptail(1000)
        start = pick.randint(0, 40) * SERIAL * pick.choice((1, 1, 20))
        net.flow(left, right, cable, cable, 1000, pick.choice((3, 10, 30, 100)), start, pick.choice((8, 20, 200)) * 1000,
                 pick.choice((0, 0, SERIAL)), *drawn(pick))
    return net.scenario(10**15)


def islands(pick):
    """Three islands or more, each a flow or a dumbbell of its own with thousands of events, and now and then
    joined by long cables, over which a flow or two go: parts that are worth running side by side."""
    net, routers = Net(), []
    segments = pick.choice((150, 200, 300))
    for _ in range(pick.choice((3, 4, 4, 6, 9))):
        left, right = net.node(ROUTER), net.node(ROUTER)
        net.cable(left, right, 8 * 10**pick.choice((7, 8)), pick.choice((1, 5, 20)) * 10**5, any_queue(pick, ('droptail', 'codel')))
        for _ in range(pick.choice((1, 1, 2, 3))):
            cable = 8 * 10**8, any_size(pick, 10**4, 10**6), droptail(pick.choice((20, 100, 1000)))
            net.flow(*pick.sample((left, right), 2), cable, cable, 1000, segments, pick.choice((0, 0, 10**6)), 64000,
                     pick.choice((0, 0, 40 * 10**6)))
        routers.append(left)
    if pick.random() < 0.5:
        for one, other in zip(routers, routers[1:]):
            net.cable(one, other, 8 * 10**6, pick.choice((10**9, 10**10)), droptail(100))
        for _ in range(pick.choice((0, 1, 2))):
            cable = 8 * 10**8, 10**5, droptail(100)
            net.flow(*pick.sample(routers, 2), cable, cable, 1000, 20, 0, 64000)
    return shuffled(net.scenario(10**15), pick)


def broken(scenario, pick):
    """The scenario with a few routes left out or leading elsewhere, or a link ending elsewhere: paths
    that break off, come to a wrong end, or go round."""
    routes, ports = dict(((r, d), k) for r, d, k in scenario.routes), scenario.outgoing()
    for _ in range(pick.choice((1, 2, 2, 3, 5))):
        change = pick.randrange(4)
        if change == 0 and routes:
            routes.pop(pick.choice(sorted(routes)))
        elif change == 1:
            link = pick.choice(scenario.links)
            link.to = pick.choice([node for node in range(len(scenario.nodes)) if node != link.source])
        elif routes:
            at = pick.choice(sorted(routes))
            routes[at] = pick.choice(ports[at[0]])
    scenario.routes = sorted((*at, link) for at, link in routes.items())
    return scenario


def with_room(net, pick, routers):
    """A router that can take one more link out."""
    free = [router for router in routers if len(net.around[router]) < MOST_ROUTER_LINKS - 2]
    return pick.choice(free) if free else None


def join_routers(net, pick, shape, cable):
    """Routers in a chain, a tree or, with `dumbbell`, two of them; answers their numbers."""
    count = 2 if shape == 'dumbbell' else pick.choice((1, 1, 2, 3, 4, 6, 16))
    routers = [net.node(ROUTER) for _ in range(count)]
    for place in range(1, count):
        other = place - 1 if shape != 'tree' else routers.index(with_room(net, pick, routers[:place]))
        for _ in range(pick.choice((1, 1, 1, 2))):      # now and then two cables side by side
            net.cable(routers[place], routers[other], *cable())
    return routers


def many_flows(pick, kinds=('droptail', 'droptail', 'codel'), most_segments=100):
    """Flows through routers in a dumbbell, a chain or a tree."""
    net, equal, shape = Net(), pick.random() < 0.4, pick.choice(('dumbbell', 'chain', 'tree'))

    def cable():
        return random_cable(pick, kinds, equal)
    routers = join_routers(net, pick, shape, cable)
    for _ in range(pick.choice((1, 2, 3, 4, 8, 14, 30))):
        at = routers[0] if shape == 'dumbbell' else with_room(net, pick, routers)
        to = routers[1] if shape == 'dumbbell' else with_room(net, pick, routers)
        if any(router is None or len(net.around[router]) > MOST_ROUTER_LINKS - 2 for router in (at, to)):
            break
        net.flow(at, to, cable(), cable(), *random_flow(pick, equal, most_segments))
    if not net.flows:
        return many_flows(pick, kinds, most_segments)
    for link in net.links:
        link.lose = random_lose(pick, most_segments) if pick.random() < 0.3 else []
    start = max(flow.start for flow in net.flows)
    return shuffled(net.scenario(random_end(pick, start, most_segments < 500), pick.random() < 0.2), pick)


def shuffled(s, pick):
    """The same scenario with its nodes, links and flows numbered anew."""
    node, link, flow = ([*range(len(records))] for records in (s.nodes, s.links, s.flows))
    for order in (node, link, flow):
        pick.shuffle(order)
    new_node = {old: new for new, old in enumerate(node)}
    new_link = {old: new for new, old in enumerate(link)}
    for k in s.links:
        k.source, k.to = new_node[k.source], new_node[k.to]
    for f in s.flows:
        f.sender, f.receiver = new_node[f.sender], new_node[f.receiver]
    routes = sorted((new_node[r], new_node[d], new_link[k]) for r, d, k in s.routes)
    return Scenario(s.end, [s.nodes[old] for old in node], [s.links[old] for old in link],
                    [s.flows[old] for old in flow], routes)
