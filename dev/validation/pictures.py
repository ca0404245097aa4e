"""The pictures of docs/VALIDATION.md, from the numbers that are kept, and the one of NewReno with an open window of docs/MODEL.md,
from two runs of the program."""
import os
import tempfile

import matplotlib

matplotlib.use('Agg')
import matplotlib.pyplot as plt     # noqa: E402

from tcpsim import plot             # noqa: E402
from tcpsim.cli.net import scenario     # noqa: E402
from validation import laws, rules, stored      # noqa: E402

FOLDER = os.path.join(os.path.dirname(os.path.dirname(os.path.dirname(os.path.abspath(__file__)))), 'docs', 'pictures')
MS, S = 10**6, 10**9
BLUE, ORANGE, GREEN, GREY, PINK, SKY = '#0072B2', '#E69F00', '#009E73', '#777777', '#CC79A7', '#56B4E9'
SAVED = {'metadata': {'Date': None}, 'bbox_inches': 'tight'}
OPEN = ['dumbbell', '--flows', '1', '--rate', '10M', '--rtt', '20ms', '--queue', 'droptail:24', '--variant', 'newreno', '--mss', '1000',
        '--delack', '0', '--end', '2700ms']


def path(name):
    return os.path.join(FOLDER, name + '.svg')


def bare(axes):
    """A panel without its frame's upper and right line, with a faint grid."""
    axes.spines[['top', 'right']].set_visible(False)
    axes.grid(alpha=.25)
    axes.set_axisbelow(True)


def save(figure, name):
    with plt.rc_context({'svg.hashsalt': 'tcpsim', 'svg.fonttype': 'none'}):
        figure.savefig(path(name), **SAVED)
    plt.close(figure)
    return path(name)


def beside_ns2():
    """Sequence numbers over ns-2's: three losses of Fall and Floyd."""
    numbers = stored.load('rules')['numbers']
    figure, panels = plt.subplots(1, 2, figsize=(9, 4.4), sharey=True)
    for axes, newreno, name in zip(panels, (False, True), ('Reno', 'NewReno')):
        at = 2
        theirs = numbers[f'Fall and Floyd, {name}'][at]['sends']
        lost = list(rules.FALL_AND_FLOYD.values())[at]
        mine = rules.Logged(rules.floyd(newreno, lost), rules.SET_UP).run().sends
        axes.plot([time / S for time, _ in theirs], [n for _, n in theirs], 'o', ms=8, mfc='none', mec=ORANGE, label='ns-2')
        axes.plot([time / S for time, _ in mine], [n for _, n in mine], '.', ms=5, color=BLUE, label='tcpsim')
        first = [next(time for time, segment in mine if segment == n) / S for n in lost]
        axes.plot(first, lost, 'x', ms=11, mew=1.6, color='black', label='lost')
        axes.set_title(f'{name}: segments {", ".join(map(str, lost))} are lost', fontsize=11, loc='left')
        axes.set_xlabel('time, s')
        axes.legend(frameon=False, loc='upper left')
        bare(axes)
    panels[0].set_ylabel('segment')
    return save(figure, 'beside_ns2')


def codel_gaps():
    """How long the next drop of a drop state is after each."""
    law = stored.load('codel')['numbers']['control law']
    figure, axes = plt.subplots(figsize=(9, 4.6))
    styles = {'tcpsim': (BLUE, 'o', 7, '-', 'tcpsim, and RFC 8289\'s pseudocode'), 'Linux': (ORANGE, 's', 6, '--', 'Linux'),
              'ns-3': (GREEN, 'x', 7, ':', 'ns-3')}
    for name, (colour, marker, size, line, label) in styles.items():
        if name in law:
            gaps = [(b - a) / MS for a, b in zip(law[name], law[name][1:])][:30]
            axes.plot(range(1, len(gaps) + 1), gaps, line, marker=marker, ms=size, mfc='none', color=colour, lw=1.2, label=label)
    counts = range(1, 31)
    axes.plot(counts, [100 / n**.5 for n in counts], color=GREY, lw=.8, label='100 ms / sqrt(count)')
    axes.set_xlabel('count')
    axes.set_ylabel('ms from this drop to the next')
    axes.set_ylim(0)
    axes.legend(frameon=False)
    bare(axes)
    return save(figure, 'codel_gaps')


def utilization_by_buffer():
    """The law as a line, runs as points."""
    points = stored.load('laws')['numbers']['utilization by buffer']
    figure, axes = plt.subplots(figsize=(9, 4.6))
    parts = [n / 200 for n in range(320)]
    axes.plot([part * (laws.PRODUCT + 1) for part in parts], [100 * laws.filled(part) for part in parts], color=GREY, label='law')
    axes.plot([point['at'] for point in points], [100 * point['found'] for point in points], 'o', color=BLUE, label='tcpsim')
    axes.set_xlabel('places of the queue (the bandwidth-delay product is 100 packets)')
    axes.set_ylabel('part of the link that is used, %')
    axes.legend(frameon=False, loc='lower right')
    bare(axes)
    return save(figure, 'utilization_by_buffer')


def phases():
    """Jain's index of each dumbbell, a group of bars."""
    rows = stored.load('phases')['numbers']
    names = {'tcpsim': BLUE, 'ns-2': ORANGE, 'ns-2 with overhead_': PINK, '--spread': GREY, '--mice 20': GREEN, '--spread --mice 20': SKY}
    figure, axes = plt.subplots(figsize=(9, 4.4))
    for at, (name, colour) in enumerate(names.items()):
        axes.bar([n + (at - 2.5) * .14 for n in range(len(rows))], [row.get(name, 0) for row in rows], .13, color=colour, label=name)
    axes.set_xticks(range(len(rows)), [row['name'].replace(', queue', ',\nqueue').replace(' flows, ', ' flows,\n') for row in rows],
                    fontsize=9)
    axes.set_ylabel('Jain\'s index')
    axes.set_ylim(0, 1.02)
    axes.legend(frameon=False, ncols=3, loc='lower center', bbox_to_anchor=(.5, 1))
    bare(axes)
    axes.grid(False, axis='x')
    return save(figure, 'phases')


def newreno_open_window(program):
    """The same flow with an open window and with the one that tcpsim-net writes."""
    with tempfile.TemporaryDirectory() as folder:
        paths = []
        windows: list[tuple[str, list[str]]] = [('open', ['--rwnd', str(2**30)]), ('bounded', [])]
        for name, words in windows:
            paths.append(os.path.join(folder, name + '.txt'))
            with open(paths[-1], 'w', encoding='ascii') as file:
                file.write(scenario([*OPEN, *words]))
        given = plot.words_of([paths[0], '--beside', paths[1], '--panels', 'window,sequence', '--names', 'open window,window of 61 kB',
                               '--program', program, '--title', 'NewReno before 10 Mbit/s, 20 ms and 24 places', '-o',
                               path('newreno_open_window')])
        figure = plot.figure_of(given)
        plot.save(figure, path('newreno_open_window'))
        plt.close(figure)
    return path('newreno_open_window')


def draw(program):
    """Draws all; answers their paths."""
    return [beside_ns2(), codel_gaps(), utilization_by_buffer(), phases(), newreno_open_window(program)]
