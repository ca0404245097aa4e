"""Tests of the replay page for a lecture: whole queues, bands of stalls, keys, stubs, what is left out, slides, two nets under
one clock, and how long a page of 200,000 events takes to load. In headless Chromium.
"""
import os
import subprocess

import pytest
from clone import BUILT, CHROMIUM, MODEL, example, paths, tool
from tcpsim.replay import recording
from test_replay import Browser

if not CHROMIUM:
    pytest.skip('LEFT OUT: no Chromium (apt-get install chromium)', allow_module_level=True)
pytest.importorskip('websockets', reason='no websockets: apt-get install python3-websockets')


@pytest.fixture(scope='module', name='browser')
def shared_browser(tmp_path_factory):
    """One browser for all tests."""
    browser = Browser(str(tmp_path_factory.mktemp('replay')))
    yield browser
    browser.close()


@pytest.fixture(scope='module', name='made')
def page_maker(tmp_path_factory):
    """Makes a page of these words; answers its path and what was said."""
    folder, count = tmp_path_factory.mktemp('pages'), iter(range(99))

    def make(*words):
        path = str(folder / f'{next(count)}.html')
        done = tool('replay', *words, '-o', path, text=True)
        assert (done.returncode, done.stderr) == (0, ''), done.stderr
        return path, done.stdout
    return make


def queue_of(browser, link):
    """The marks of a queue's squares, its data, its count, and the widths of its bar by flow."""
    return browser.json(f'''(() => {{
      const e = document.querySelector('g.queue[data-link="{link}"]');
      return {{marks: [...e.querySelectorAll('.box[data-packet] text')].map(t => t.textContent), ...e.dataset,
        count: e.querySelector('.count').textContent, whole: e.querySelector('.capacity').getBBox().width,
        bars: Object.fromEntries([...e.querySelectorAll('.bar')].map(b => [b.dataset.flow,
          [...b.getAttribute('d').matchAll(/h([\\d.]+)v/g)].reduce((sum, found) => sum + +found[1], 0)]))}};
    }})()''')


# ---- queues

def test_bufferbloat_shows_the_victims_packets_at_the_tail(browser, made):
    """g's first four segments, offered at 3 s, are the last of 341 that wait."""
    browser.open(made(*paths('bufferbloat'))[0], '#event=5000')
    queue = queue_of(browser, 0)
    assert queue['marks'][-4:] == ['g'] * 4
    assert set(queue['marks'][:-4]) == {'f'}
    assert queue['count'] == '341/1,000 2.84 s'
    assert int(queue['wait']) == 341 * 1040 * 8 * 1000
    # 337 of the 1,000 places are f's and 4 are g's
    assert queue['bars']['0'] / queue['whole'] == pytest.approx(.337, abs=.02)
    assert 0 < queue['bars']['1'] / queue['whole'] < .03


def test_a_queue_of_three_and_one_of_sixty_look_different(browser, made):
    browser.open(made(*paths('slow_start_into_a_full_queue'))[0], '#event=20')
    queue = queue_of(browser, 0)
    assert (queue['marks'], queue['count']) == (['f'] * 3, '3/3 3.12 ms')
    assert queue['bars']['0'] == pytest.approx(queue['whole'], abs=.1)
    browser.open(made(*paths('four_flows_share_a_long_queue'))[0], '#event=500')
    queue = queue_of(browser, 0)
    length = int(queue['length'])
    assert sum(queue['bars'].values()) / queue['whole'] == pytest.approx(length / 60, abs=.03)


def test_what_is_dropped_falls_from_the_queues_tail(browser, made):
    browser.open(made(*paths('slow_start_into_a_full_queue'))[0], '#event=20')
    words = '[...document.querySelectorAll(".drop .reason")].map(e => e.textContent)'
    assert browser.json(words) == ['\u2715 full: f 11,000']
    mouths = '["full", "codel"].map(r => page.net.queues[0].mouth(r)).concat(page.net.lines[0].queue[0])'
    tail, head, corner = browser.json(mouths)
    assert corner < head < tail


def test_letters_where_names_are_long(browser, made, tmp_path):
    path = tmp_path / 'long.txt'
    path.write_text(example('one_segment')[0].replace('flow f ', 'flow download '), encoding='ascii')
    browser.open(made(str(path), paths('one_segment')[1])[0], '#event=1')
    assert browser.json('[...document.querySelectorAll(".packet text")].map(e => e.textContent)') == ['A']
    assert browser.json('document.querySelector("#flows label").textContent') == 'A download'


# ---- charts, keys, what is left out

def test_stalls_are_bands_of_the_chart(browser, made):
    """The example stands still from line 18 (6.24 ms) to line 31, of its 3.015 s."""
    browser.open(made(*paths('two_timeouts_in_a_row'))[0])
    bands = browser.json('[...document.querySelectorAll("#windows .bands .stall")].map(e => '
                           '[page.panels.charts.windows.x.invert(+e.getAttribute("x")), page.panels.charts.windows.x.invert(+e.getAttribute("x") + '
                           '+e.getAttribute("width"))])')
    spans = browser.json('page.record.stalls.map(s => [s.from, s.to])')
    assert len(bands) == 1
    assert bands[0] == pytest.approx(spans[0], rel=1e-6)


def test_the_keys_are_on_the_screen(browser, made):
    browser.open(made(*paths('one_segment'))[0])
    hidden = 'document.getElementById("keys").hidden'
    assert browser.json(hidden) is True
    browser.press('?')
    assert browser.json(hidden) is False
    told = browser.json('document.getElementById("keys").textContent')
    for words in ('play', 'drop, timeout, stall', 'Home End'):
        assert words in told
    browser.press('ArrowRight')
    assert (browser.json(hidden), browser.json('page.record.at')) == (True, 0)      # it closes them, and that is all
    browser.press('ArrowRight')
    assert browser.json('page.record.at') == 1


def test_what_is_left_out_is_said(browser, made):
    name = paths('four_flows_share_codel')
    browser.open(made(*name)[0])
    assert browser.json('document.getElementById("left").textContent') == ''
    browser.open(made(*name, '--from', '2s', '--to', '7s')[0])
    first = browser.json('page.record.first')
    told = browser.json('document.getElementById("left").textContent')
    assert told.startswith(f'; left out: {first:,} events before 2.0')
    assert 'what comes after 6.9' in told


def test_a_starts_first_round_trip_is_a_stall_as_for_the_tool(browser, made, tmp_path):
    """Over a way of 207 ms there and back nothing is lost and nothing waits; over one of 193 ms there is none."""
    for delay, stalls in ((103500000, [[0, 'f']]), (96500000, [])):
        path = tmp_path / f'far{delay}.txt'
        path.write_text(f'node s sender\nnode r receiver\nlink a s r 100000000 {delay} droptail 100\n'
                        f'link b r s 100000000 {delay} droptail 100\nflow f s r 1000 1 0 64000 0\nsim 5000000000\n', encoding='ascii')
        browser.open(made(str(path), '--program', MODEL)[0])
        assert browser.json('page.record.stalls.map(s => [s.from, page.facts.flows[s.flow].name])') == stalls
        assert tool('stalls', str(path), '--csv', '--program', MODEL, text=True).stdout.count('\nf,') == len(stalls)


# ---- large nets

@pytest.mark.parametrize('words', [('tree', '--flows', '8', '--leaves', '4', '--rate', '1M', '--end', '2s'),
                                   ('islands', '--end', '300ms')], ids=['tree', 'islands'])
def test_ends_of_large_nets_are_stubs(browser, made, tmp_path, words):
    """All nodes stand apart in the panel with names of nine pixels at least, four squares of a queue at least, ends without queues and names of links; `f`
    draws them whole, and again as stubs."""
    path = tmp_path / 'net.txt'
    assert tool('net', *words, '-o', str(path)).returncode == 0
    browser.open(made(str(path), '--program', MODEL)[0], '#event=200')
    seen = '''(() => {
      const panel = document.getElementById('net').getBoundingClientRect();
      return {folded: page.net.folded, panel: [panel.left, panel.top, panel.right, panel.bottom],
        nodes: [...document.querySelectorAll('.node')].map(e => { const b = e.querySelector('rect').getBoundingClientRect();
          const letters = e.querySelector('.name');
          return {kind: e.classList[1], box: [b.left, b.top, b.right, b.bottom], words: e.querySelectorAll('text').length,
            tall: parseFloat(getComputedStyle(letters).fontSize) * letters.getScreenCTM().a}; }),
        most: [...document.querySelectorAll('g.queue')].map(e => +e.dataset.most)};
    })()'''
    shown = browser.json(seen)
    assert shown['folded']
    assert {node['words'] for node in shown['nodes'] if node['kind'] != 'router'} == {1}
    assert min(node['tall'] for node in shown['nodes']) >= 9
    assert 0 in shown['most'] and max(shown['most']) >= 4
    boxes = [node['box'] for node in shown['nodes']]
    for number, one in enumerate(boxes):
        assert one[0] >= shown['panel'][0] - 1 and one[1] >= shown['panel'][1] - 1
        assert one[2] <= shown['panel'][2] + 1 and one[3] <= shown['panel'][3] + 1
        for other in boxes[:number]:
            assert min(one[2], other[2]) - max(one[0], other[0]) < 1 or min(one[3], other[3]) - max(one[1], other[1]) < 1
    browser.press('f')
    whole = browser.json(seen)
    assert not whole['folded'] and min(whole['most']) >= 4
    browser.press('f')
    assert browser.json(seen)['folded']


def test_a_small_net_has_no_button_for_stubs(browser, made):
    browser.open(made(*paths('one_segment'))[0])
    assert browser.json('[page.net.folded, document.getElementById("fold").hidden]') == [False, True]


# A work of the browser's alone, and the seconds that it takes on a machine which has nothing else to do.
SOME_WORK = '''(() => {
  const rows = [];
  for (let i = 0; i < 300000; i++) rows.push({time: i * 7919 % 100003, name: 'f' + i % 7, at: [i, i + 1]});
  rows.sort((a, b) => a.time - b.time);
  return JSON.parse(JSON.stringify(rows)).length;
})()'''
SOME_SECONDS = 0.9


@pytest.mark.skipif(not os.access(BUILT, os.X_OK), reason='LEFT OUT: no built program')
def test_a_page_of_200_000_events_loads_within_two_seconds_of_its_processor(browser, made, tmp_path):
    """So much time of the page's thread does it take from its opening to its first picture, the least of three; on a machine
    that takes longer for some other work, as much longer."""
    path = tmp_path / 'long.txt'
    assert tool('net', 'dumbbell', '--flows', '2', '--rate', '10M', '--end', '40s', '-o', str(path)).returncode == 0
    trace = tmp_path / 'long.trace'
    with open(trace, 'wb') as file:
        subprocess.run([BUILT, 'run', str(path)], stdout=file, check=True)
    lines = trace.read_text(encoding='ascii').splitlines()
    assert len(lines) > recording.MOST_EVENTS
    until = lines[recording.MOST_EVENTS - 1].split(' ')[1]
    out, _ = made(str(path), str(trace), '--to', f'{until}ns')
    browser.call('Performance.enable', timeDomain='threadTicks')
    loads, works = [], []
    for _ in range(3):
        browser.open(out)                       # whose thread has done nothing yet
        assert browser.json('page.record.count') > 199_000
        loads.append(task_seconds(browser))
        browser.value(SOME_WORK)
        works.append(task_seconds(browser) - loads[-1])
    assert min(loads) < 2 * max(1, min(works) / SOME_SECONDS), (loads, works)


def task_seconds(browser):
    """Seconds of its processor that the page's thread has worked."""
    metrics = browser.call('Performance.getMetrics')['metrics']
    return next(metric['value'] for metric in metrics if metric['name'] == 'TaskDuration')


# ---- slides, two nets

def test_a_slide_has_large_letters_and_no_lines(browser, made):
    browser.open(made(*paths('bufferbloat'), '--slide')[0], '#event=5000')
    sizes = browser.json('''["#replay h1", "#where", "#play", "#under", "#flows label", "#windows .title",
      "#lengths .axis text"].map(css => parseFloat(getComputedStyle(document.querySelector(css)).fontSize))''')
    assert min(sizes) >= 8 and sizes[0] == sizes[1] == sizes[2] == sizes[4] == sizes[5] == sizes[6] == 24
    assert browser.json('getComputedStyle(document.getElementById("below")).display') == 'none'


def test_two_nets_have_one_clock(browser, made):
    """Behind drop-tail g waits at the tail at 3.05 s; with CoDel five packets wait."""
    path, said = made(*paths('bufferbloat'), '--beside', *paths('bufferbloat_with_codel'))
    assert '8,583 events from event 1 on, and 8,803 events from event 1 on' in said
    browser.open(path, '#time=3050000000')

    def state():
        return browser.json('[clock.time, ...clock.pages.map(p => [p.record.at, p.time])]')
    time, *both = state()
    assert time == 3_050_000_000
    for (at, shown), name in zip(both, ('bufferbloat', 'bufferbloat_with_codel')):
        times = [int(line.split(' ')[1]) for line in example(name)[1][:-1]]
        assert at == sum(moment <= time for moment in times)
        assert shown == time
    counts = browser.json('FRAMES.map(f => f.contentDocument.querySelector(".queue .count").textContent)')
    assert counts == ['339/1,000 2.82 s', '5/1,000 41.6 ms']
    browser.press('ArrowRight')                     # to the next event of either
    moved, *both = state()
    assert moved > time and {shown for _, shown in both} == {moved}
    browser.press('Home')
    browser.press('s')                              # the first stall of either: CoDel's f, at 0.37 s
    assert state()[0] == min(browser.json('clock.pages.flatMap(p => p.record.stalls.map(s => s.from))'))
    browser.press('End')
    browser.press('d')
    assert 'no drop after this moment' in browser.json('document.getElementById("time").textContent')


def test_two_nets_as_slides_have_charts_that_can_be_read(browser, made):
    """Each axis of values has two labels at least, and none covers another."""
    browser.open(made(*paths('bufferbloat'), '--beside', *paths('bufferbloat_with_codel'), '--slide')[0], '#time=3050000000')
    charts = browser.json('''FRAMES.flatMap(f => ['windows', 'lengths'].map(id =>
      [...f.contentDocument.querySelector(`#${id} .axis`).querySelectorAll('text')].map(e => {
        const box = e.getBoundingClientRect(); return [box.top, box.bottom]; })))''')
    assert len(charts) == 4
    for labels in map(sorted, charts):
        assert len(labels) >= 2
        for above, below in zip(labels, labels[1:]):    # digits take up less than three quarters of their letters' box
            assert below[0] - above[0] >= .75 * (above[1] - above[0]), labels


@pytest.mark.parametrize('words, note', [(('--beside', 'a', 'b', 'c'), 'a scenario and at most a trace'),
                                         (('--beside', '/nowhere/a.txt'), '/nowhere/a.txt')])
def test_words_that_are_refused(tmp_path, words, note):
    out = tmp_path / 'x.html'
    done = tool('replay', *paths('one_segment'), '-o', str(out), *words, text=True)
    assert done.returncode in (1, 2) and done.stderr.count('\n') == 1, done.stderr
    assert note in done.stderr
    assert not out.exists()
