"""Tests of tcpsim-replay and its page.

The pages of four examples are opened in headless Chromium. At 50 positions of each, forwards, backwards
and by jumps, what the drawn elements say of themselves is compared with the dump of `tcpsim debug` at
that position. The dumps come from the built program, and where it is not built from the model in
python/tcpsim_model. `python3 python/tests/test_replay.py` writes docs/pictures/replay_*.png.
"""
import functools
import importlib.util
import math
import os
import random
import re
import shutil
import sys
import tempfile

import pytest

if __name__ == '__main__':      # pytest.ini names dev/ to pytest alone
    sys.path.insert(1, os.path.join(os.path.dirname(os.path.abspath(__file__)), '..', '..', 'dev'))
import browsers
import test_trace
from clone import CHROMIUM, NAMES, PROGRAM, TOP, Folder, csv_rows, example, outcome, paths, ran, read, read_text, told, tool
from tcpsim.replay import page, recording
from tcpsim.scenario import units
from tcpsim.scenario.text import Scenario, Unreadable
from tcpsim.traces.curves import read_run

PICTURES = os.path.join(TOP, 'docs', 'pictures')
IN_BROWSER = pytest.mark.skipif(not CHROMIUM or not importlib.util.find_spec('websockets'),
                                reason='no Chromium or no websockets: apt-get install chromium python3-websockets')
# A queue that overflows, a timeout, CoDel, three routers.
COMPARED = 'slow_start_into_a_full_queue', 'two_timeouts_in_a_row', 'four_flows_share_codel', 'parking_lot_of_three_routers'
# The pages of which the documents have a picture, and the event that it shows.
PICTURED = {'slow_start_into_a_full_queue': 20, 'two_timeouts_in_a_row': 27, 'four_flows_share_codel': 2467, 'bufferbloat': 5000}
POSITIONS = 50
READ = '''(() => {
  const all = (css, what) => [...document.querySelectorAll(css)].filter(e => e.getAttribute('display') !== 'none').map(what);
  return {
    event: document.documentElement.dataset.event, hash: location.hash,
    present: all('#lines li.present', e => e.title),
    packets: all('.packet', e => ({...e.dataset, transform: e.getAttribute('transform'), squares: e.querySelectorAll('rect').length,
      rings: e.querySelectorAll('.ring').length, word: e.querySelector('text').textContent})),
    links: all('g.link', e => ({...e.dataset})),
    queues: all('g.queue', e => ({...e.dataset, text: e.querySelector('.count').textContent,
      boxes: [...e.querySelectorAll('.box[data-packet]')].filter(b => b.getAttribute('display') !== 'none').map(b => b.dataset.packet),
      words: [...e.querySelectorAll('.box[data-packet] text')].map(b => b.textContent)})),
    nodes: all('g.node', e => ({...e.dataset})),
    drops: all('.drop', e => ({...e.dataset, text: e.querySelector('.reason')?.textContent})),
    notice: document.getElementById('notice').textContent};
})()'''
# What lies over what: [what, left, top, right, bottom, the panel's edges] of every label and shape that is seen.
SEEN = '''(() => {
  const edges = e => { const b = e.getBoundingClientRect(); return [b.left, b.top, b.right, b.bottom]; };
  const seen = e => {
    const b = e.getBoundingClientRect();
    return b.width > 0 && b.height > 0 && getComputedStyle(e).visibility !== 'hidden';
  };
  const of = (panel, css) => {
    const around = edges(document.querySelector(panel));
    return [...document.querySelectorAll(panel + ' ' + css)].filter(seen).map(e => {
      const kind = e.getAttribute('class') || e.parentNode.getAttribute('class') || e.nodeName;
      return {what: `${e.textContent.trim() || e.nodeName} (${kind})`, edges: edges(e), around,
        node: e.closest('.node')?.dataset.node};
    });
  };
  const words = e => ({what: e.id || e.nodeName, wide: [e.scrollWidth, e.clientWidth],
    tall: [e.scrollHeight, e.clientHeight]});
  return {
    labels: ['.rate', '.count', '.reason', '.node text'].flatMap(css => of('#net', css)),
    shapes: ['.node rect', '.box', '.packet', '.drop > rect', '.drop > .disc'].flatMap(css => of('#net', css)),
    charts: ['#windows', '#lengths'].map(panel => of(panel, 'text')),
    ticks: ['#flows', '#links'].map(panel => of(panel, 'label')),
    head: of('header', '> *'),
    cut: [...document.querySelectorAll('#under, #key, #notice, h1, header, #lines, #lines li')].filter(seen).map(words)};
})()'''
STALLS = 'page.record.stalls.map(s => [page.facts.flows[s.flow].name, s.from, s.to])'
# The events after which to look: see `test_no_label_lies_over_another`.
MOMENTS = '''(() => {
  const r = page.record, drops = d3.nest().key(d => d.event).entries(r.drops);
  const most = d3.max(drops, d => d.values.length), {timeouts} = r;
  const queues = r.facts.links.map((_, l) => r.queueCurve(l)), longest = d3.max(queues, q => d3.max(q.values));
  const queue = queues.find(q => d3.max(q.values) === longest);
  return [most ? +drops.find(d => d.values.length === most).key : Math.ceil(r.count / 4),
    r.eventsBefore(queue.times[queue.values.indexOf(longest)] + 1), timeouts.length ? timeouts[timeouts.length - 1] : r.last];
})()'''


# ---- a browser

class Browser(browsers.Chromium):
    """A headless Chromium that shows replay pages."""

    def __init__(self, folder, environment=None):
        super().__init__(folder, environment=environment)
        self.size(1280, 720)

    def open(self, path, address=''):
        """Opens a page; answers its milliseconds until all is drawn."""
        super().open(f'file://{path}{address}')
        return int(self.wait('(d => d.failed || d.ready)(document.documentElement.dataset)'))

    def go(self, event):
        self.value(f'new Promise(done => {{ addEventListener("hashchange", () => done(0), {{once: true}}); '
                   f'if (location.hash === "#event={event}") done(0); else location.hash = "#event={event}"; }})')

    def shown(self):
        return self.json(READ)

    def families(self, css):
        """The fonts by which the words of an element are drawn."""
        self.call('DOM.enable')
        self.call('CSS.enable')
        root = self.call('DOM.getDocument', depth=0)['root']['nodeId']
        node = self.call('DOM.querySelector', nodeId=root, selector=css)['nodeId']
        return {font['familyName'] for font in self.call('CSS.getPlatformFontsForNode', nodeId=node)['fonts']}


# ---- what the debugger says


def dumps(name, positions):
    """The dump at each position, as the lines' words, from one session of the debugger."""
    session, at = example(name)[0] + '---\n', 0
    for position in positions:
        session += f'step {position - at}\n' if position >= at else f'back {at - position}\n'
        at = position
    found = []
    for line in outcome(['debug'], session.encode())[2].decode('ascii').splitlines():
        if line.startswith('at '):
            found.append([])
        found[-1].append(line.split(' '))
    return found


def signs(words):
    return dict(word.split('=', 1) for word in words if '=' in word)


# ---- the data, without a browser

# The run of test_trace.py, up to its seventh line.
BY_HAND = test_trace.BY_HAND.replace('sim 12000000', 'sim 3100000')
TRACE = ''.join(test_trace.TRACE.splitlines(True)[:7]) + 'end 7\n'


class Files(Folder):
    def path(self, name, text=None):
        return os.path.join(self.folder, name) if text is None else self.put(name, text)

    def run_script(self, *words):
        return tool('replay', *words, cwd=self.folder, text=True)


def part_of(text, trace, begin=0, end=None):
    return recording.Part(Scenario(text), trace.splitlines(), begin, end)


def scenario_of(name):
    return Scenario(example(name)[0])


def test_state_before_a_moment_by_hand():
    part = part_of(BY_HAND, TRACE, begin=2040000)
    assert part.first == 2
    assert [line.split()[0] for line in part.lines] == ['3', '4', '5', '6', '7']
    link = part.base['links'][0]
    assert (link['offered'], link['sent'], link['arrived'], link['busy']) == (4, 2, 0, True)
    assert link['waiting'] == [[0, 0, 2000, 0, False]]
    assert link['under_way'] == [[0, 0, 0, 0, 2040000, False, 0], [0, 0, 1000, 1040000, 3080000, False, 0]]
    flow = part.base['flows'][0]
    assert (flow['una'], flow['nxt'], flow['cwnd'], flow['ssthresh'], flow['next']) == (0, 4000, 4000, 64000, 0)
    assert [part_of(BY_HAND, TRACE, begin=moment).base['flows'][0]['since'] for moment in (0, 2040000)] == [None, 0]


def test_to_leaves_its_moment_out():
    assert len(part_of(BY_HAND, TRACE, end=2080000).lines) == 3
    assert len(part_of(BY_HAND, TRACE, end=2080001).lines) == 5


def test_states_are_the_debuggers():
    for name in COMPARED:
        scenario = scenario_of(name)
        lines = example(name)[1]
        moments = sorted({int(line.split()[1]) for line in lines[:-1]})
        chosen = random.Random(name).sample(moments, min(20, len(moments)))
        parts = [recording.Part(scenario, lines, moment) for moment in chosen]
        for part, dump in zip(parts, dumps(name, [part.first for part in parts])):
            compare(part, dump)


def compare(part, dump):
    under_way = {(int(w[3]) - 1, int(w[1]), int(w[6]), int(w[5] == 'ack'), int(w[7]))
                 for w in dump if w[0] == 'event' and w[3] != '0'}
    assert under_way == {(n, p[4], *p[:3]) for n, link in enumerate(part.base['links'])
                                 for p in link['under_way']}
    for words in dump:
        told = signs(words)
        if words[0] == 'link':
            link = part.base['links'][int(words[1])]
            queue = ','.join(f'{p[0]}:{"da"[p[1]]}:{p[2]}@{p[3]}' for p in link['waiting']) or '-'
            assert (told['offered'], told['sent'], told['queue']) == (str(link['offered']), str(link['sent']), queue)
        elif words[0] == 'node' and words[2] == 'sender':
            flow = part.base['flows'][int(words[3])]
            assert [told[key] for key in ('una', 'nxt', 'high', 'cwnd', 'ssthresh', 'dups', 'fr')] == [str(int(flow[key])) for key in
                              ('una', 'nxt', 'high', 'cwnd', 'ssthresh', 'dups', 'recovering')]
        elif words[0] == 'node' and words[2] == 'receiver':
            flow = part.base['flows'][int(words[3])]
            assert (told['next'], told['held']) == (str(flow['next']), ','.join(map(str, flow['above'])) or '-')


def test_every_example_is_taken_whole():
    for name in NAMES:
        lines = example(name)[1]
        part = recording.Part(scenario_of(name), lines)
        assert part.whole, name
        assert lines[:-1] == part.lines, name


class TestRefusals(Files):
    def refused(self, trace, *says, scenario=BY_HAND, words=()):
        given, lines, out = self.path('a.txt', scenario), self.path('a.trace', trace), self.path('a.html')
        if os.path.exists(out):
            os.remove(out)
        done = self.run_script(given, lines, '-o', out, *words)
        assert done.returncode == 1, done
        assert done.stderr.count('\n') == 1, done.stderr
        for word in says:
            assert word in done.stderr
        assert sorted(os.listdir(self.folder)) == ['a.trace', 'a.txt']

    def change(self, number, old, new):
        lines = TRACE.splitlines(True)
        assert old in lines[number - 1]
        lines[number - 1] = lines[number - 1].replace(old, new, 1)
        return ''.join(lines)

    def test_lines_that_are_not_this_scenarios(self):
        for number, old, new in (
                (1, 'tx=0:0:0', 'tx=7:0:0'), (1, 'start 0', 'start 3'), (1, ' 0 0 0 start', ' 9 0 0 start'),
                (1, 'drop=full:0:3000', 'drop=full:0:4000'), (1, ' drop=full:0:3000', ''), (1, 'phase=ss', 'phase=xx'),
                (2, '2 1040000', '3 1040000'), (2, '1040000', '1040001'), (2, 'free 0', 'free 1'), (2, 'free 0', 'free 12'),
                (2, 'cwnd=4000', 'cwnd=4001'), (2, 'tx=0:0:1000', 'tx=0:0:2000'), (2, ' tx=0:0:1000', ''),
                (3, 'data 0 0', 'data 0 1000'), (3, '1 1 1 data', '1 1 2 data'), (3, '1 1 1 data', '1 9 1 data'),
                (3, 'next=1000', 'next=0'), (3, 'next=1000', 'next='), (3, 'data 0 0', 'data 0 x'), (3, 'data', 'date'),
                (4, '2080000', '2000000'), (5, 'free 1', 'free -1'), (5, 'next=1000', 'next=2000'),
                (6, 'una=1000', 'una=2000'), (6, 'nxt=6000', 'nxt=7000'), (6, 'ack 0 1000', 'ack 0'),
                (6, '6 3080000', '7 3080000'), (7, 'data 0 1000', 'data 0 2000'), (8, 'end 7', 'end 8'), (8, 'end 7', 'end')):
            self.refused(self.change(number, old, new), f'line {number} ')

    def test_cut_lines(self):
        whole = TRACE[:TRACE.index('end')]
        for cut in (1, 2, 9, 30, 45):
            self.refused(whole[:-cut], 'line 7 ')

    def test_empty_and_not_a_trace(self):
        self.refused('', 'line 1 ')
        self.refused('\n', 'line 1 ')
        self.refused('PNG\u00e9\n', 'line 1 ')

    def test_other_scenario(self):
        self.refused(read_text(paths('four_flows_share_codel')[1]), 'line 1 ')

    def test_no_scenario(self):
        self.refused(TRACE, 'line 2', scenario='sim 5\nnode\n')
        self.refused(TRACE, 'tcpsim-replay: ', scenario=BY_HAND.replace('link b', '# link b'))

    def test_no_event_in_the_span(self):
        self.refused(TRACE, '--from', words=('--from', '1s'))

    def test_files_that_are_not_there(self):
        done = self.run_script('nothing.txt', 'nothing.trace')
        assert (done.returncode, done.stderr.count('\n'), os.listdir(self.folder)) == (2, 1, [])
        given, lines = self.path('a.txt', BY_HAND), self.path('a.trace', TRACE)
        done = self.run_script(given, lines, '-o', os.path.join(self.folder, 'no', 'a.html'))
        assert (done.returncode, done.stderr.count('\n')) == (2, 1), done.stderr
        done = self.run_script(given, '--program', os.path.join(self.folder, 'no'))
        assert (done.returncode, done.stderr.count('\n')) == (1, 1), done.stderr

    def test_times_that_are_none(self):
        given, lines = self.path('a.txt', BY_HAND), self.path('a.trace', TRACE)
        done = self.run_script(given, lines, '--from', 'noon')
        assert done.returncode == 2
        assert 'Traceback' not in done.stderr

    def test_too_many_events_name_what_fits(self, monkeypatch):
        monkeypatch.setattr(recording, 'MOST_EVENTS', 4)
        with pytest.raises(Unreadable) as refused:
            part_of(BY_HAND, TRACE)
        words = str(refused.value).replace(',', '').split()
        spans = [units.moment(words[n + 1]) for n, word in enumerate(words) if word in ('--from', '--to')]
        assert spans == [0, 2080000, 2080000]
        assert len(part_of(BY_HAND, TRACE, spans[0], spans[1]).lines) == 3
        assert len(part_of(BY_HAND, TRACE, spans[2]).lines) == 4


class TestPages(Files):
    def test_size(self):
        for name in COMPARED:
            out = self.path('a.html')
            done = self.run_script(*paths(name), '-o', out)
            assert done.returncode == 0, done.stderr
            text = read_text(out)
            assert '@@' not in text.partition('id="facts"')[2]
            assert not re.search(r'(src|href)=["\']?(https?:)?//', text)
            packed = text.partition('id="trace">')[2].partition('</script>')[0]
            events = int(done.stdout.split(': ')[1].split()[0].replace(',', ''))
            assert len(packed) <= 40 * events, name
            assert done.stdout.endswith(f', {os.path.getsize(out):,} bytes\n') and os.path.getsize(out) > len(text)

    @pytest.mark.built
    def test_program_is_run_without_a_trace(self):
        for words in ((), (paths('two_timeouts_in_a_row')[1],)):
            done = self.run_script(paths('two_timeouts_in_a_row')[0], *words, '--program', PROGRAM, '-o',
                                   self.path(f'{len(words)}.html'))
            assert done.returncode == 0, done.stderr
        assert read(self.path('0.html')) == read(self.path('1.html'))
        self.refused_by_program(PROGRAM)

    def refused_by_program(self, named):
        done = self.run_script(self.path('a.txt', BY_HAND.replace('droptail 2', 'droptail 0')), '--program', named)
        assert (done.returncode, done.stderr.count('\n')) == (1, 1), done.stderr
        assert 'refused E5 line 4' in done.stderr

    def test_folder_of_pages(self):
        given, out = self.path('given'), self.path('pages')
        os.mkdir(given)
        self.path('given/by_hand.txt', '# One line,\n# <and> another.\n' + BY_HAND)
        self.path('given/by_hand.trace', TRACE)
        words = sys.executable, os.path.join(TOP, 'dev', 'pages.py'), '--examples', given, '-o'
        done = ran(*words, out, text=True)
        assert done.returncode == 0, done.stderr
        assert sorted(os.listdir(out)) == ['by_hand.html', 'index.html']
        text = read_text(out, 'index.html')
        assert 'href="by_hand.html"' in text
        assert 'One line, &lt;and&gt; another.' in text
        self.path('given/by_hand.trace', TRACE.replace('una=1000', 'una=2000'))
        done = ran(*words, self.path('none'), text=True)
        assert (done.returncode, done.stderr.count('\n')) == (1, 1), done.stderr
        assert 'line 6' in done.stderr

    def test_d3_is_brought_along(self):
        """Each page has the clone's d3 whole, and its license lies beside it."""
        library = read_text(page.LIBRARY)
        assert 'version:"3.' in library[:200]
        assert 'Michael Bostock' in read_text(os.path.dirname(page.LIBRARY), 'LICENSE')
        out = self.path('a.html')
        assert self.run_script(*paths('one_segment'), '-o', out).returncode == 0
        assert library in read_text(out)


# ---- the page in a browser


def positions_of(name, count):
    """50 positions: forwards in a row, backwards in a row, and jumps."""
    chance = random.Random(name)
    begin = chance.randrange(max(1, count - 20))
    ahead = [min(count, begin + n) for n in range(17)]
    back = [max(0, ahead[-1] - 1 - n) for n in range(17)]
    jumps = [0, count] + [chance.randrange(count + 1) for _ in range(POSITIONS - 36)]
    return ahead + back + jumps


def point_at(way, part):
    """The point at a part of a way that is given by its points."""
    lengths = [math.dist(one, other) for one, other in zip(way, way[1:])]
    rest = part * sum(lengths)
    for one, other, length in zip(way, way[1:], lengths):
        if rest <= length:
            break
        rest -= length
    return tuple(a + (b - a) * min(1, rest / length) for a, b in zip(one, other))


def mark_of(scenario, flow):
    """What a flow's packets carry: its name where all are of two letters at most, else a letter."""
    names = [its.name for its in scenario.flows]
    return names[flow] if all(len(name) <= 2 for name in names) else chr(ord('A') + flow)


def ends_of(waiting, most):
    """The packets of a queue that have squares: all, or those at its head and at its tail with a gap between them."""
    heads = math.ceil(.4 * (most - 1))
    return waiting if len(waiting) <= most else waiting[:heads] + waiting[heads + 1 - most:]


def count_text(scenario, number, waiting):
    """How many packets wait at a link, of how many, and for how long the last of them: the time that they take to send."""
    link, size = scenario.links[number], 0
    for flow, sort in (word.split(':')[:2] for word in waiting):
        size += 40 + (scenario.flows[int(flow)].mss if sort == 'd' else 0)
    text, ns = f'{len(waiting):,}/{link.capacity:,}', size * 8e9 / link.rate
    if not waiting:
        return text
    scale, unit = next((least, word) for least, word in ((1e9, 's'), (1e6, 'ms'), (1e3, '\u00b5s'), (1, 'ns')) if ns >= least)
    return f'{text} {float(f"{ns / scale:.3g}"):g} {unit}'


def overlap(one, other):
    """How far two boxes lie over each other, in the direction in which it is less."""
    return min(min(one[2], other[2]) - max(one[0], other[0]), min(one[3], other[3]) - max(one[1], other[1]))


def collisions(seen, most=1):
    """What a page shows that lies over something else, leaves its panel or is cut, by more than a pixel."""
    found = []
    labels = seen['labels']
    groups = [labels, *seen['charts'], *seen['ticks'], seen['head']]
    pairs = [(one, other) for group in groups for k, one in enumerate(group) for other in group[k + 1:]]
    pairs += [(label, shape) for label in labels for shape in seen['shapes']
              if 'node' not in label or label['node'] != shape.get('node')]
    found += [f'{one["what"]} lies over {other["what"]}' for one, other in pairs
              if overlap(one['edges'], other['edges']) > most]
    for one in [*sum(groups, []), *seen['shapes']]:
        box, panel = one['edges'], one['around']
        if min(box[0] - panel[0], box[1] - panel[1], panel[2] - box[2], panel[3] - box[3]) < -most:
            found.append(f'{one["what"]} leaves its panel')
    found += [f'{one["what"]} is cut' for one in seen['cut'] for whole, room in (one['wide'], one['tall'])
              if room and whole - room > most]
    return found


PAGES = tempfile.TemporaryDirectory(prefix='replay')


@functools.cache
def page_of(name, *words):
    """The page of an example, made once; its path."""
    out = os.path.join(PAGES.name, f'{name}{"".join(words)}.html')
    assert tool('replay', *paths(name), '-o', out, *words).returncode == 0
    return out


class WithBrowser:
    """Tests that share one browser."""

    @classmethod
    def setup_class(cls):
        cls.folder = tempfile.mkdtemp(prefix='replay')
        cls.browser = Browser(cls.folder, cls.environment())

    @classmethod
    def environment(cls):
        """What is added to the browser's environment."""
        return {}

    @classmethod
    def teardown_class(cls):
        cls.browser.close()
        shutil.rmtree(cls.folder, True)

    @staticmethod
    def made(name, *words):
        return page_of(name, *words)


@IN_BROWSER
class TestInBrowser(WithBrowser):
    def compare(self, name, scenario, lines, position, shown, dump):
        where = f'{name}, event {position}'
        assert (shown['event'], shown['hash']) == (str(position), f'#event={position}'), where
        assert shown['present'] == ([lines[position - 1]] if position else []), where
        now = int(lines[position - 1].split(' ')[1]) if position else 0
        self.compare_packets(scenario, shown, dump, now, where)
        queues = {int(queue['link']): queue for queue in shown['queues']}
        links = {int(link['link']): link for link in shown['links']}
        nodes = {int(node['node']): node for node in shown['nodes']}
        for words in dump:
            told = signs(words)
            if words[0] == 'link':
                number = int(words[1])
                waiting = [] if told['queue'] == '-' else told['queue'].split(',')
                queue, limit = queues[number], scenario.links[number].capacity
                assert (queue['length'], queue['limit'], queue['boxes'], queue['text']) == \
                    (str(len(waiting)), str(limit), ends_of(waiting, int(queue['most'])),
                                  count_text(scenario, number, waiting)), where
                assert int(queue['most']) >= 8, where
                assert queue['words'] == [mark_of(scenario, int(word.split(':')[0])) for word in queue['boxes']], where
                assert (links[number]['offered'], links[number]['sent']) == (told['offered'], told['sent']), where
            elif words[0] == 'node' and words[2] == 'sender':
                node = nodes[int(words[1])]
                assert [words[3]] + [told[key] for key in ('una', 'nxt', 'high', 'cwnd', 'ssthresh', 'dups', 'fr')] == \
                    [node[key] for key in ('flow', 'una', 'nxt', 'high', 'cwnd', 'ssthresh', 'dups', 'recovery')], where
            elif words[0] == 'node' and words[2] == 'receiver':
                node = nodes[int(words[1])]
                assert (words[3], told['next']) == (node['flow'], node['next']), where
        drops = [word[5:] for word in (lines[position - 1].split(' ') if position else []) if word.startswith('drop=')]
        assert sorted(drops) == sorted(f'{d["reason"]}:{d["flow"]}:{d["number"]}' for d in shown['drops']), where
        self.compare_words_of_drops([flow.name for flow in scenario.flows], shown['drops'], where)

    def compare_words_of_drops(self, names, drops, where):
        """The drops of one event at one link have their words once, at the last of them."""
        groups = {}
        for drop in drops:
            groups.setdefault((drop['event'], drop['link']), []).append(drop)
        for group in groups.values():
            more = f' +{len(group) - 1}' if len(group) > 1 else ''
            last = group[-1]
            assert [drop['text'] for drop in group if 'text' in drop] == \
                [f'\u2715 {last["reason"]}: {names[int(last["flow"])]} {int(last["number"]):,}{more}'], where

    def compare_packets(self, scenario, shown, dump, now, where):
        told = sorted((int(w[3]) - 1, int(w[4]), int(w[6]), w[5], int(w[7]), int(w[1]))
                      for w in dump if w[0] == 'event' and w[3] != '0')
        drawn = {(int(p['link']), int(p['count']), int(p['flow']), p['sort'], int(p['number']), int(p['arrives'])): p
                 for p in shown['packets']}
        assert told == sorted(drawn), where
        ways = {int(link['link']): [tuple(map(float, point.split(','))) for point in link['way'].split(' ')]
                for link in shown['links']}
        for (link, _, flow, sort, _, arrives), packet in drawn.items():
            size = 40 + (scenario.flows[flow].mss if sort == 'data' else 0)
            took = -(-size * 8 * 10**9 // scenario.links[link].rate) + scenario.links[link].delay
            part = (now - (arrives - took)) / took
            assert float(packet['place']) == pytest.approx(part, rel=0, abs=5e-6), where
            at = tuple(map(float, packet['transform'][len('translate('):-1].split(',')))
            for found, told in zip(at, point_at(ways[link], part)):
                assert found == pytest.approx(told, rel=0, abs=.02), where
            assert packet['squares'] == int(sort == 'data'), where
            assert packet['rings'] == int(packet['again']), where
            assert packet['word'] == mark_of(scenario, flow), where

    def open_whole(self, path, address=''):
        """Opens a page, with the ends of its net whole."""
        self.browser.open(path, address)
        self.browser.value('page.makeNet(false); page.draw()')

    def walk(self, name):
        scenario = scenario_of(name)
        lines = example(name)[1][:-1]
        positions = positions_of(name, len(lines))
        assert len(positions) == POSITIONS
        self.open_whole(self.made(name), f'#event={positions[0]}')
        at = positions[0]
        for number, (position, dump) in enumerate(zip(positions, dumps(name, positions))):
            if number and number < 34 and abs(position - at) == 1:
                self.browser.press('ArrowRight' if position > at else 'ArrowLeft')
            elif number:
                self.browser.go(position)
            at = position
            self.compare(name, scenario, lines, position, self.browser.shown(), dump)

    def test_forwards_backwards_and_jumps(self):
        for name in COMPARED:
            self.walk(name)

    def test_every_example_at_three_moments(self):
        """The other examples: one early, one in the middle, one late event."""
        for name in NAMES:
            scenario = scenario_of(name)
            lines = example(name)[1][:-1]
            chosen = [len(lines) // 10 + 1, len(lines) // 2, len(lines)]
            self.open_whole(self.made(name))
            for position, dump in zip(chosen, dumps(name, chosen)):
                self.browser.go(position)
                self.compare(name, scenario, lines, position, self.browser.shown(), dump)

    def test_columns(self):
        """By hand: senders first, then the routers p, q, u in a row; rb is behind q, ra and rc behind u."""
        self.open_whole(self.made('parking_lot_of_three_routers'))
        columns = self.browser.json('page.net.places.map(place => place.column)')
        assert columns == [1, 2, 3, 0, 4, 0, 3, 0, 4]

    def test_ticks_draw_curves(self):
        self.browser.open(self.made('parking_lot_of_three_routers'))
        drawn = 'document.querySelectorAll("#windows path[stroke], #lengths .area").length'
        assert self.browser.value(drawn) == 6 + 4        # the packets of two flows wait at each link
        self.browser.click('document.querySelector("#flows input")')
        self.browser.click('document.querySelector("#links input")')
        assert self.browser.value(drawn) == 4 + 2

    def test_curves_are_the_traces(self):
        """cwnd at each sender's line, and the greatest length of each queue."""
        name = 'four_flows_share_codel'
        run = read_run(*paths(name))
        self.browser.open(self.made(name))
        for number, flow in enumerate(run.flows):
            curve = self.browser.json(f'(({{times, values}}) => ({{times: [...times], values: [...values]}}))(page.record.curve(page.record.ofFlow({number}, CWND)))')
            changes = [(time, now) for time, now, before in zip(flow.times, flow.cwnd, [4000, *flow.cwnd])
                       if now != before]
            assert list(zip(curve['times'], curve['values']))[1:] == changes
        longest = self.browser.json('page.record.longest')
        assert [max(link.queue, default=0) for link in run.links] == self.browser.json(
            'page.facts.links.map((_, l) => d3.max(page.record.queueCurve(l).values))')
        assert all(a >= max(link.queue, default=0) for a, link in zip(longest, run.links))

    def test_from_a_moment_on(self):
        name, scenario = 'four_flows_share_codel', scenario_of('four_flows_share_codel')
        lines = example(name)[1][:-1]
        self.open_whole(self.made(name, '--from', '2s', '--to', '3s'))
        first = sum(int(line.split()[1]) < 2 * 10**9 for line in lines)
        last = sum(int(line.split()[1]) < 3 * 10**9 for line in lines)
        assert int(self.browser.shown()['event']) == first
        chosen = sorted(random.Random(3).sample(range(first + 1, last + 1), 12), key=lambda n: n % 7)
        for position, dump in zip(chosen, dumps(name, chosen)):
            self.browser.go(position)
            self.compare(name, scenario, lines, position, self.browser.shown(), dump)
        for asked, found in ((0, first), (10**6, last)):
            self.browser.go(asked)
            assert int(self.browser.shown()['event']) == found

    def test_address_past_the_end_and_no_number(self):
        path = self.made('two_timeouts_in_a_row')
        self.browser.open(path, '#event=99999999')
        assert (self.browser.shown()['event'], self.browser.shown()['hash']) == ('51', '#event=51')
        self.browser.open(path, '#event=x')
        assert self.browser.shown()['event'] == '0'

    def test_keys_find_drops_timeouts_and_stalls(self):
        """The example's hunt (docs/DEBUGGING.md): drops at 6, 10 and 26, timeouts at 26 and 27, and
        between lines 18 and 31 no new acknowledgement."""
        self.browser.open(self.made('two_timeouts_in_a_row'))
        found = []
        for key in 'ddddrrRDs':
            if key == 'r' and found and len(found) == 4:
                self.browser.press('Home')
            self.browser.press(key)
            found.append(int(self.browser.shown()['event']))
        assert found[:3] == [6, 10, 26]
        assert found[3] == 26
        assert found[4:8] == [26, 27, 26, 10]
        assert found[8] == 18         # una rose in line 18 and not again before line 31
        assert 'no new acknowledgement for 3.003080 s' in self.browser.shown()['notice']

    def visited(self, key):
        """The moments, in nanoseconds, to which a key leads from the page's first event on."""
        self.browser.press('Home')
        found, last = [], None
        while True:
            self.browser.press(key)
            event, time_ns = self.browser.json('[page.record.at, page.record.timeOf(page.record.at)]')
            if event == last:
                return found
            found.append(time_ns)
            last = event

    def test_stalls_are_those_of_stalls_py(self):
        """`s` visits the moments from which tcpsim-stalls says that a flow stood still, in every example."""
        for name in NAMES:
            rows = self.rows_of_stalls(name)
            self.browser.open(self.made(name))
            assert sorted(self.browser.json(STALLS)) == sorted(rows)
            # Where there is no stall `s` stays before the first event, at 0.
            assert self.visited('s') == (sorted(row[1] for row in rows) or [0])
            assert 'no stall after this event' in self.browser.shown()['notice']

    def rows_of_stalls(self, name, *words):
        return [[row['flow'], int(row['from']), int(row['to'])] for row in csv_rows(told('stalls', *paths(name), '--csv', *words))]

    def test_stalls_of_a_part(self):
        """Those that begin within the part, with the moments that they have in the whole run."""
        name, begin, end = 'four_flows_share_codel', 2 * 10**9, 7 * 10**9
        self.browser.open(self.made(name, '--from', '2s', '--to', '7s'))
        last = self.browser.value('page.record.times[page.record.count]')
        rows = [[flow, since, min(to, last)] for flow, since, to in self.rows_of_stalls(name)
                if begin <= since < end and min(to, last) - since > 2 * 10**8]
        assert len(rows) > 10
        assert sorted(self.browser.json(STALLS)) == sorted(rows)

    def test_clicks_say_words_and_commands(self):
        self.browser.open(self.made('two_timeouts_in_a_row'), '#event=27')
        words = 'document.getElementById("words").textContent'
        for script, says in (
                ('document.querySelector("#lines li.present")', ('retransmission timer', 'RFC 6298 section 5', 'step 27')),
                ('document.querySelector(".packet")', ('segment 4,000', 'was sent before', 'step 27')),
                ('document.querySelector(".node.sender")', ('congestion window', 'step 27', 'until 3006200000')),
                ('document.querySelector(".queue .count")', ('0 of at most 10', 'of link a, drop-tail', 'step 27'))):
            self.browser.click(script)
            for word in says:
                assert word in self.browser.value(words)
        shown = self.browser.shown()['packets']
        assert [(p['number'], p['rings']) for p in shown] == [('4000', 1)]

    def test_chart_goes_to_its_moment(self):
        self.browser.open(self.made('two_timeouts_in_a_row'))
        self.browser.click('document.querySelector("#windows .catch")')
        # The middle of 3.0..s lies between the last event before the first timeout and that timeout's second.
        assert int(self.browser.shown()['event']) in (26,)

    def test_both_charts_go_to_their_moment(self):
        self.browser.open(self.made('two_flows_share_fairly'))
        for chart in ('windows', 'lengths'):
            self.browser.click(f'document.querySelector("#{chart} .catch")')
            times = self.browser.json('[page.time, page.record.timeOf(page.record.at), page.record.timeOf(page.record.at + 1), '
                                      '...page.panels.charts.windows.x.domain()]')
            middle = (times[3] + times[4]) / 2
            assert times[0] == pytest.approx(middle, rel=0, abs=(times[4] - times[3]) / 400)
            assert times[1] < times[0]
            assert times[0] <= times[2]
            self.browser.press('Home')

    def step_the_clock(self):
        """From here on frames come as `pass_time` has it, however busy the browser is."""
        self.browser.value('''window.frames_due = [];
            window.requestAnimationFrame = frame => frames_due.push(frame);
            window.passed = 0;
            window.passTime = ms => {
                for (const end = passed + ms; passed <= end; passed += 50) frames_due.splice(0).forEach(frame => frame(passed)); };''')

    def pass_time(self, ms):
        """As many milliseconds pass, a frame each 50."""
        self.browser.value(f'passTime({ms})')

    def test_speed(self):
        """A thousandth to ten times real time, or events a second; what is shown keeps the pace."""
        self.browser.open(self.made('two_flows_share_fairly'))
        self.browser.value('''window.set = (unit, value) => {
            page.unit.value = unit; page.unit.dispatchEvent(new Event('change'));
            page.speed.value = value; page.speed.dispatchEvent(new Event('input')); }''')
        said = 'document.getElementById("pace").textContent'
        for unit, value, says in (('time', 0, '0.001 \u00d7'), ('time', 300, '1 \u00d7'), ('time', 400, '10 \u00d7'),
                                  ('events', 0, '1 a second'), ('events', 400, '10000 a second')):
            self.browser.value(f'set("{unit}", {value})')
            assert self.browser.value(said) == says
        self.step_the_clock()
        for unit, value, measure, pace in (('time', 100, 'page.time', 10**7), ('events', 150, 'page.record.at', 31.6)):
            self.browser.value(f'set("{unit}", {value})')
            at = self.browser.value(measure)
            self.browser.press(' ')
            self.pass_time(1500)
            self.browser.press(' ')
            self.pass_time(0)
            assert self.browser.value(measure) - at == pytest.approx(1.5 * pace, rel=0, abs=1)

    def test_space_plays_and_pauses(self):
        self.browser.open(self.made('slow_start_into_a_full_queue'))
        self.step_the_clock()
        self.browser.press(' ')
        self.pass_time(600)
        self.browser.press(' ')
        shown = int(self.browser.shown()['event'])
        assert shown > 0
        self.pass_time(200)
        assert int(self.browser.shown()['event']) == shown


class OneFont:
    """The page with the fonts of one package of Debian's and no others: each has other widths."""

    fonts, sans, mono = None, None, None

    @classmethod
    def environment(cls):
        """A configuration of fontconfig's that knows these fonts alone."""
        path = os.path.join(cls.folder, 'fonts.conf')
        aliases = ''.join(f'<alias binding="strong"><family>{name}</family><prefer><family>{family}</family></prefer></alias>'
                          for name, family in (('sans-serif', cls.sans), ('monospace', cls.mono)))
        with open(path, 'w', encoding='utf-8') as file:
            file.write('<?xml version="1.0"?><!DOCTYPE fontconfig SYSTEM "urn:fontconfig:fonts.dtd"><fontconfig>'
                       f'<dir>{cls.fonts}</dir><cachedir>{cls.folder}/fonts</cachedir>{aliases}</fontconfig>\n')
        return {'FONTCONFIG_FILE': path}

    def test_no_label_lies_over_another(self):
        """Every example's page at 1,280 by 720: where most was dropped at once, where most packets wait, at
        the last timeout or at the end, and with the words of the first stall. (A line's own words may want
        scrolling.)"""
        for name in NAMES:
            self.browser.open(self.made(name))
            assert [self.browser.families(css) for css in ('h1', '#windows .title', '#where')] == \
                [{self.sans}, {self.sans}, {self.mono}]
            for moment in self.browser.json(MOMENTS):
                self.browser.go(moment)
                assert collisions(self.browser.json(SEEN)) == []
            self.browser.press('Home')
            self.browser.press('s')
            assert self.browser.shown()['notice'] != ''
            assert collisions(self.browser.json(SEEN)) == []

    def test_axis_of_time_has_its_labels(self):
        """However wide they are: at least three, and the curves reach from the axis to the last moment."""
        for name in COMPARED:
            self.browser.open(self.made(name))
            labels = self.browser.json('["#windows", "#lengths"].map(css => '
                                       '[...document.querySelectorAll(css + " .axis:nth-of-type(2) text")].length)')
            assert all(count >= 3 for count in labels), (name, labels)


@IN_BROWSER
@pytest.mark.skipif(not os.path.isdir('/usr/share/fonts/truetype/dejavu'), reason='no DejaVu: apt-get install fonts-dejavu')
class TestDejaVuAlone(OneFont, WithBrowser):
    fonts, sans, mono = '/usr/share/fonts/truetype/dejavu', 'DejaVu Sans', 'DejaVu Sans Mono'


@IN_BROWSER
@pytest.mark.skipif(not os.path.isdir('/usr/share/fonts/truetype/liberation'), reason='no Liberation: apt-get install fonts-liberation')
class TestLiberationAlone(OneFont, WithBrowser):
    fonts, sans, mono = '/usr/share/fonts/truetype/liberation', 'Liberation Sans', 'Liberation Mono'


def draw_pictures():
    """A picture of each compared example, and of its page at 1,000 by 640, in 1.4 times as many pixels: letters can be read."""
    folder = tempfile.mkdtemp(prefix='replay')
    browser = Browser(folder)
    browser.call('Emulation.setDeviceMetricsOverride', width=1000, height=640, deviceScaleFactor=1.4, mobile=False)
    try:
        for name, event in PICTURED.items():
            browser.open(page_of(name), f'#event={event}')
            browser.picture(os.path.join(PICTURES, f'replay_{name}.png'))
    finally:
        browser.close()


if __name__ == '__main__':
    draw_pictures()
