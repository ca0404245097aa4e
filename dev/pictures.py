#!/usr/bin/env python3
"""Draws the pictures of README.md and docs/TUTORIAL.md into docs/pictures, from the traces in examples/.

Usage: dev/pictures.py [NAME...]
"""
import os
import shlex
import sys

from clone import TOP
from tcpsim import plot
from tcpsim.breakdown import Breakdown
from tcpsim.critical_path import critical_paths
from tcpsim.plot import bars
from tcpsim.whole_trace import opened_run

EXAMPLES, FOLDER = os.path.join(TOP, 'examples'), os.path.join(TOP, 'docs', 'pictures')
# Of each picture of one run the panels that show its lesson.
OF_ONE_RUN = {
    'one_segment': 'window,sequence', 'delayed_acks_and_their_alarm': 'window,sequence',
    'slow_start_into_a_full_queue': 'window,sequence,queue', 'two_timeouts_in_a_row': 'window,sequence',
    'a_lost_retransmission': 'window,sequence', 'sawtooth_of_congestion_avoidance': 'window,queue,delay,utilization',
    'bufferbloat': 'sequence,queue,delay', 'a_slow_way_back': 'window,sequence,queue',
    'fast_recovery': 'window,sequence,utilization', 'bufferbloat_with_codel': 'sequence,queue,delay',
    'two_flows_share_fairly': 'window,queue,progress', 'two_round_trips_do_not_share_fairly': 'window,queue,progress',
    'lock_out_at_equal_times': 'window,queue,progress', 'four_flows_share_a_long_queue': 'window,queue,progress',
    'four_flows_share_codel': 'window,queue,progress', 'parking_lot_of_three_routers': 'window,queue,progress',
    'acks_share_the_bottleneck': 'sequence,queue', 'a_timer_that_stays_doubled': 'sequence,timer'}


def run_of(name):
    """The words that name a scenario and its trace."""
    return [os.path.join(EXAMPLES, name + ending) for ending in ('.txt', '.trace')]


# What else it takes to show it: a part of the time, what counts as a stall, axes of the same height in two pictures.
MORE = {'delayed_acks_and_their_alarm': ['--longer', '50ms'],
        'sawtooth_of_congestion_avoidance': ['--from', '4s'],
        'acks_share_the_bottleneck': ['--from', '1.5s', '--to', '3.6s', '--longer', '500ms'],
        **dict.fromkeys(('four_flows_share_a_long_queue', 'four_flows_share_codel'),
                        ['--top', 'window=36k,queue=60,progress=225k'])}
# Each picture and the words that draw it.
PICTURES = {name: [*run_of(name), '--panels', panels, *MORE.get(name, ())] for name, panels in OF_ONE_RUN.items()}
PICTURES['drop_tail_and_codel'] = [
    *run_of('bufferbloat'), '--beside', *run_of('bufferbloat_with_codel'), '--panels', 'delay,progress',
    '--flow', 'g', '--log', '--names', 'drop-tail,CoDel', '--title', '700 kB fill a link of 1 Mbit/s, and 10 kB follow at 3 s']

PICTURES['a_larger_initial_window'] = [
    *run_of('a_larger_initial_window'), '--panels', 'window,sequence', '--longer', '400ms', '--title',
    'Thirty segments, with an initial window of three and of ten']
PICTURES['reno_and_newreno'] = [
    *run_of('three_losses_in_a_window'), '--beside', *run_of('three_losses_in_a_window_with_newreno'),
    '--panels', 'window,sequence', '--names', 'Reno,NewReno', '--title', '150 kB, of which three segments of one window are lost']


# Bars of a flow's time, beside the panels: a run of each of these names, and the flow.
BARS = {'where_the_time_went': ({'drop-tail': 'bufferbloat', 'CoDel': 'bufferbloat_with_codel'}, 'g')}


def file_of(name):
    return os.path.join(FOLDER, name + '.svg')


def command_of(name):
    """The command that draws it, from the top of a clone."""
    words = [os.path.relpath(word, TOP) if word.startswith(TOP) else word for word in PICTURES[name] if not word.endswith('.trace')]
    return shlex.join(['bin/tcpsim-plot', *words, '-o', f'{name}.svg'])


def figure_of(name):
    return plot.figure_of(plot.words_of([*PICTURES[name], '-o', file_of(name)]))


def bars_of(name):
    runs, flow = BARS[name]
    found = []
    for label, example in runs.items():
        with opened_run(*run_of(example)) as (scenario, lines):
            number = [each.name for each in scenario.flows].index(flow)
            found.append((label, [Breakdown(critical_paths(scenario, lines, [number]), number)]))
    return bars.draw(found)


def main():
    names = sys.argv[1:] or [*PICTURES, *BARS]
    unknown = [name for name in names if name not in PICTURES and name not in BARS]
    if unknown:
        print(f'pictures.py: no picture is named {unknown[0]}', file=sys.stderr)
        return 2
    os.makedirs(FOLDER, exist_ok=True)
    for name in names:
        figure = bars_of(name) if name in BARS else figure_of(name)
        plot.save(figure, file_of(name))
        print(os.path.relpath(file_of(name), TOP))
    return 0


if __name__ == '__main__':
    sys.exit(main())
