"""Tests of docs/SCENARIOS.md: its text runs as the page says, its figure shows that text, and each of its
mistakes is refused with the words of its row. Run with the built program, else with the model."""
import functools
import html
import re

from clone import outcome, read_text
from tcpsim.figures import Figures
from tcpsim.figures import figures as trace_figures
from tcpsim.scenario.text import Scenario


def page():
    return read_text('docs', 'SCENARIOS.md')


def scenario():
    return re.search(r'```\n(sim .*?\n)```', page(), re.S)[1]


def mistakes():
    """The rows of the table of mistakes: what is written, and what the program is to say."""
    table = page().partition('## Ten mistakes')[2]
    return re.findall(r'^\| ([^|]*`?[^|]*) \| `(refused [^`]*)` \| [^|]*\|$', table, re.M)


def with_mistake(written):
    """The page's text with the change that a row's first cell names."""
    text = scenario()
    if 'CRLF' in written:
        return text.replace('\n', '\r\n')
    line = re.search('`([^`]*)`', written)[1]
    lines = text.splitlines()
    if 'left out' in written:
        lines.remove(line)
    elif 'in addition' in written:
        last_link = max(n for n, other in enumerate(lines) if other.startswith('link '))
        lines.insert(last_link + 1, line)
    else:
        lines[place_of(line, lines)] = line
    return '\n'.join(lines) + '\n'


def place_of(line, lines):
    """The one line that the changed one stands for: that with all its words but one."""
    places = [n for n, other in enumerate(lines) if len(other.split()) == len(line.split()) and
              sum(a != b for a, b in zip(other.split(), line.split())) == 1]
    if len(places) != 1:
        raise ValueError(f'{line} changes no one line')
    return places[0]


def run(text):
    status, note, trace = outcome(['run'], text.encode('ascii'))
    return status, trace.decode('ascii'), note.decode('utf-8').strip()


def test_its_text_runs():
    status, trace, note = run(scenario())
    assert (status, note) == (0, '')
    events = re.search(r'^([\d,]+) events;', page(), re.M)[1].replace(',', '')
    assert trace.splitlines()[-1] == f'end {events}'


def test_its_figure_shows_its_text():
    shown = re.findall('<text [^>]*monospace[^>]*>([^<]*)<', read_text('docs', 'pictures', 'dumbbell.svg'))
    assert [html.unescape(line) for line in shown] == scenario().splitlines()


def test_its_mistakes_are_refused_as_it_says():
    rows = mistakes()
    assert len(rows) == 10
    for written, note in rows:
        assert run(with_mistake(written)) == (1, '', note)


def test_ten_nanoseconds_are_over_at_once():
    text = scenario().replace('sim 20000000000', 'sim 10').replace(' 100000000 200000 0', ' 0 200000 0')
    assert run(text)[1].splitlines()[-1] == 'end 2'


def test_its_figures():
    """Shares and median waits with drop-tail and with CoDel, in whole numbers, and the least round trip."""
    told = re.search(r'fa has (\d+) percent of `pq` and fb, with twice the round trip, (\d+)\. With CoDel at `pq` '
                     r'\(below\) they have (\d+) and (\d+), and packets wait (\d+) ms in the median, not (\d+)\.', page())
    assert [int(number) for number in told.groups()] == \
        [*shares(scenario()), *shares(with_codel()), median_wait(with_codel()), median_wait(scenario())]
    least = figures(scenario())['fa', 'least round trip']
    assert f"fa's round trip is {least / 10**6:.3f} ms" in page()


def with_codel():
    link = re.search('`(link pq [^`]* codel [^`]*)`', page())[1]
    return ''.join((link if line.startswith('link pq ') else line) + '\n' for line in scenario().splitlines())


@functools.lru_cache
def figures(text):
    status, trace, note = run(text)
    if status:
        raise ValueError(note)
    return {(name, figure): value for _, name, figure, _, value in
            trace_figures(Figures(Scenario(text), trace.splitlines()))}


def shares(text):
    return [round(100 * figures(text)[flow, 'share of the bottleneck']) for flow in ('fa', 'fb')]


def median_wait(text):
    return round(figures(text)['pq', 'median delay in the queue'] / 10**6)
