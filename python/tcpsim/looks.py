"""What a run looks like: the colours and words of matplotlib's pictures, of the replay page and of the page with the simulator.

A colour of a page is a custom property of CSS, as `--flow-0`, with a value for a light and for a dark scheme.
"""
from __future__ import annotations

# Of flows: those of a picture are the first four. They differ in lightness too, by 15 of 100 at least, for grey print and for who
# doesn't see red and green.
FLOWS = '#0B3C6F', '#9C4A1A', '#2FA08A', '#F2BE4A', '#5E8FC7', '#D98B5F', '#7CCFBE', '#6B4E00'
FLOWS_IN_THE_DARK = '#2F72C4', '#D97F4E', '#6AD1B9', '#FCECC0', '#8FB8EA', '#A9612F', '#2FA08A', '#E0B040'
# Of links, told apart as those are, and from them.
LINKS = '#3A3A3A', '#9715D8', '#2CB211', '#F2B5D3'
LINKS_IN_THE_DARK = '#8C939B', '#8F3FF0', '#45D62A', '#FFDDEE'
ORANGE, RED, PURPLE, SKY = '#E69F00', '#D55E00', '#CC79A7', '#56B4E9'       # of Okabe and Ito
TIMEOUT = '#D6005A'                                                         # none of a flow's or link's
# Why packets are dropped: a picture's marker, its colour, and the words of keys.
DROPS = {'full': ('x', RED, 'dropped: queue full'), 'codel': ('v', PURPLE, 'dropped by CoDel'),
         'lost': ('+', '#000000', 'lost by the scenario\'s list')}
# What else is marked or shaded, in the words of keys; a stall with how long it is at least.
MARKS = {'timeout': 'timeout', 'recovery': 'recovery', 'stall': 'no new ack for over {}', 'again': 'sent again'}
# What panels show, in the words of titles.
PANELS = {'window': 'congestion window', 'queue': 'packets that wait in the queue', 'delay': 'delay in the queue of each packet sent', 'sequence': 'sequence numbers',
          'progress': 'bytes acknowledged of each flow'}

# The colours of a page: its grounds, its letters, what can be pressed, and what is drawn of a run, in light and in the dark.
PAGE = {
    'paper': ('#ffffff', '#14181d'), 'ground': ('#eef1f4', '#0b0e12'), 'raised': ('#f6f8fa', '#1d232a'), 'line': ('#d3d9df', '#333c46'),
    'edge': ('#76818d', '#7d8894'), 'shade': ('#76818d', '#3f4a55'), 'ink': ('#15191e', '#e8ecf0'), 'quiet': ('#55606b', '#a7b1bc'), 'accent': ('#0a5fb4', '#7bb8f5'),
    'on-accent': ('#ffffff', '#08131f'), 'soft': ('#e3effb', '#1b3350'), 'good': ('#1b6e3c', '#7ed6a0'), 'good-soft': ('#e4f4ea', '#16301f'),
    'bad': ('#a61b1b', '#ff9d97'), 'bad-soft': ('#fdeaea', '#3a1a1a'), 'present': ('#fff3b0', '#4b4210'), 'node': ('#333b44', '#98a3ae'),
    'wire': ('#8a8a8a', '#77818b'), 'drop': ('#B5002A', '#FF8FA3'), 'again': (ORANGE, ORANGE), 'codel': (PURPLE, '#E3A0C6'),
    'lost': ('#000000', '#ffffff'), 'recovery': (SKY, SKY), 'timeout': (TIMEOUT, '#FF5C9E'), 'stall': ('#000000', '#ffffff'),
    'keyword': ('#6A3D9A', '#c9a6f5'), 'type': ('#00684a', '#74d3ac'), 'number': ('#8a4b00', '#f0b672'), 'name': ('#0050a0', '#8cc0fa')}


def ink_on(color: str) -> str:
    """Black or white, whichever is read better on a colour."""
    parts = [int(color[at:at + 2], 16) / 255 for at in (1, 3, 5)]
    red, green, blue = (part / 12.92 if part <= .04045 else ((part + .055) / 1.055) ** 2.4 for part in parts)
    return '#000000' if .2126 * red + .7152 * green + .0722 * blue > .179 else '#ffffff'


def css() -> str:
    """The custom properties of a page, in light and in the dark."""
    schemes = []
    for number, (flows, links) in enumerate(((FLOWS, LINKS), (FLOWS_IN_THE_DARK, LINKS_IN_THE_DARK))):
        own = {name: colors[number] for name, colors in PAGE.items()}
        own.update({f'flow-{k}': color for k, color in enumerate(flows)} | {f'on-flow-{k}': ink_on(color) for k, color in enumerate(flows)})
        own.update({f'link-{k}': color for k, color in enumerate(links)})
        schemes.append(' '.join(f'--{name}: {color};' for name, color in own.items()))
    return (f':root {{ color-scheme: light dark; {schemes[0]} }}\n@media (prefers-color-scheme: dark) {{ :root {{ {schemes[1]} }} }}\n')
