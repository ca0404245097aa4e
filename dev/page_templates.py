"""Drawn sets of fields for the templates of the page with the simulator, and what the Python package makes of them."""
import random

from tcpsim.api.scenarios import built
from tcpsim.command_line import Wrong

TIMES = '1ms', '20ms', '40ms', '80ms', '0.5s', '100us', '33.333ms', '7ns', '1s', '10s', '123456789ns'
RATES = '10M', '1.5M', '800k', '1G', '1000', '123456', '100M', '1.000001M', '1000G', '10Mbit', '2.5Mbit/s', '64000bit'
QUEUES = 'droptail:50', 'droptail:1', 'droptail:BDP', 'droptail:0.5BDP', 'droptail:2BDP/sqrt(n)', 'droptail:BDP/sqrt(n)', 'codel:5ms:100ms', 'codel:5ms:100ms:77', 'codel:1ms:20ms:200:1540', 'droptail:65535'
SEGMENTS = '1', '20', '700', '1000000000'
WRONG = {'rate': ('10', 'fast', '10MB', '1.23456k', '2000G', '10Mbps', '10bit'), 'rtt': ('40', '11s', '1.5ns', '0', '4ns'), 'delay': ('0', '20', '11s'),
         'queue': ('red:5', 'droptail:', 'droptail:0', 'codel:5ms', 'codel:5ms:0', 'droptail:65536', 'codel:5ms:100ms:10:70000'),
         'segments': ('0', 'x', '1.5', '2000000000'), 'variant': ('cubic', 'Reno', 'reno,tahoe'), 'iw': ('4', 'iw', 'iw11'), 'start': ('20s', '1'),
         'end': ('0', '5', '2000000s'), 'flows': ('-1', '129', '1.0', 'two'), 'hops': ('0', '251'), 'cross': ('8',), 'down': ('5',), 'up': ('1T',),
         'uploads': ('x',), 'up_queue': ('none',)}
NAMES = {'dumbbell': ('flows', 'rate', 'rtt'), 'chain': ('hops', 'flows', 'rate', 'delay'), 'parking-lot': ('hops', 'cross', 'rate', 'delay'),
         'asymmetric': ('down', 'up', 'flows', 'uploads', 'rtt', 'up_queue')}
LISTS = 'rtt', 'delay', 'segments', 'start', 'variant', 'iw'


def words_of(pick, shape, name):
    """A value for a field, of those that are taken most of the time."""
    if pick.random() < .02:
        return pick.choice(WRONG[name])
    some = {'flows': lambda: str(pick.choice((1, 2, 3, 4, 9, 15, 16, 31, 100))), 'hops': lambda: str(pick.randint(1, 6)),
            'cross': lambda: str(pick.randint(1, 4)), 'uploads': lambda: str(pick.randint(0, 3)),
            'rate': lambda: pick.choice(RATES), 'down': lambda: pick.choice(RATES), 'up': lambda: pick.choice(RATES),
            'rtt': lambda: pick.choice(TIMES), 'delay': lambda: pick.choice(TIMES), 'queue': lambda: pick.choice(QUEUES),
            'up_queue': lambda: pick.choice(QUEUES), 'segments': lambda: pick.choice(SEGMENTS), 'variant': lambda: pick.choice(('reno', 'newreno')),
            'iw': lambda: pick.choice(('3', '10', 'iw3', 'iw10')), 'start': lambda: pick.choice(('0', '1s', '250ms', '3.5s')),
            'end': lambda: pick.choice(('20s', '5s', '100s', '4s', '1000000000ns'))}[name]
    many = name in LISTS or name == 'rate' and shape in ('chain', 'parking-lot')
    return ','.join(some() for _ in range(pick.choice((1, 1, 1, 1, 1, 1, 2, 3)) if many else 1))


def drawn(count, seed=1):
    """So many drawn (shape, fields)."""
    pick = random.Random(f'templates {seed}')
    for _ in range(count):
        shape = pick.choice(list(NAMES))
        names = (*NAMES[shape], 'queue', 'segments', 'variant', 'iw', 'start', 'end')
        yield shape, {name: words_of(pick, shape, name) for name in names if pick.random() < .6}


def of_package(shape, fields):
    """The text that the package writes, or the sentence of its refusal."""
    try:
        return built(shape, fields).text, None
    except Exception as wrong:
        if type(wrong).__name__ != Wrong.__name__:
            raise
        return None, str(wrong)
