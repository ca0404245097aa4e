#!/usr/bin/env python3
"""Measures the page with the simulator beside the native program and writes bench/PAGE.md:
bench/page.py [--page FILE] [--rounds N] [--print] [--moved]

Both do the same in turn in each round, on the same machine, and the least of all rounds counts. The browser is headless
Chromium; a number is moved in Firefox too. A freeze is the longest task of the page's own thread while a run is read and shown,
by the clock and by the processor, as the browser traces it; memory is what the page's process holds more than before once it has
read a trace, beside the trace's bytes. With --print nothing is written; --moved measures only the number that is moved.
"""
import argparse
import itertools
import json
import os
import subprocess
import sys
import tempfile
import textwrap
import time

sys.path.insert(1, os.path.join(os.path.dirname(os.path.dirname(os.path.abspath(__file__))), 'dev'))
import browsers
from results import BENCH, ENVIRONMENT, PROGRAM, TOP, made, saved, table, timed
from scenarios import disassemble, droptail, dumbbell, one_flow

PAGE = os.path.join(BENCH, 'PAGE.md')
MADE = os.path.join(TOP, 'out', 'page', 'tcpsim.html')
# What is wanted: seconds of the first view and of the module, times the native seconds, seconds of a freeze, bytes an event beside the
# trace, which is of runs with so many events.
FIRST_VIEW, MODULE, FIGURES, RUN, FREEZE, MEMORY, MANY = 1.0, 4.0, 4, 6, 0.05, 24, 100_000
STEPS, STEP, WAY = 200, 0.1, 8          # steps of a number that is moved, seconds of a step at the 95th percentile, and steps until it goes back
# What is moved: a name, its text, and how the statement begins whose last number is moved.
MOVED = (('bufferbloat', lambda: open(f'{TOP}/examples/bufferbloat.txt', encoding='ascii').read(), 'link a '),
         ('dumbbell of 2 flows', lambda: disassemble(dumbbell(2, 1_350, droptail(50))).decode(), 'link l0 '))
AFTER = 3               # seconds in which a worker is gone that was ended
READ = '''(async text => {
  const begun = performance.now(), run = simulator.engine.start(['run'], toBytes(text), {read: true}), record = new Record(factsOf(text, 'x'));
  await fill(record, run.pieces);
  const {status} = await run.ended;
  window.kept = record;
  return [status, record.count, record.lines.bytes, (performance.now() - begun) / 1000];
})'''
COUNT = '''(async text => {
  const begun = performance.now(), {status} = await simulator.engine.run(['figures'], toBytes(text));
  return [status, (performance.now() - begun) / 1000];
})'''
SHOW = '''(async () => {
  await simulator.start();
  await new Promise(done => setTimeout(done, 500));
  return simulator.page ? simulator.page.record.count : 0;
})()'''


# From the key until the frame is out in which what it changes is drawn.
MOVE = '''(async way => {
  const {box} = simulator.editor, line = simulator.editor.text.split('\\n').findIndex(it => it.startsWith(window.moved)), begun = performance.now();
  const drawn = new Promise(done => new MutationObserver(done).observe(document.documentElement, {attributeFilter: ['data-explored']}));
  box.setCursor({line, ch: box.getLine(line).length});
  simulator.drag.key(way);
  await drawn;
  await new Promise(done => requestAnimationFrame(() => { const {port1, port2} = new MessageChannel(); port1.onmessage = done; port2.postMessage(0); }));
  return performance.now() - begun;
})'''


def native(words, path):
    """The seconds of a run of the native program, its output written to a file in memory."""
    with open(path, 'rb') as given, tempfile.TemporaryFile(dir='/dev/shm') as out:
        return timed(lambda: subprocess.run([PROGRAM, *words], stdin=given, stdout=out, env=ENVIRONMENT, check=True))


def held(browser):
    """What the page's process holds, in bytes, behind a collection."""
    browser.call('HeapProfiler.collectGarbage')
    session, browser.session = browser.session, None
    ones = browser.call('SystemInfo.getProcessInfo')['processInfo']
    browser.session = session
    most = 0
    for it in ones:
        if it['type'] == 'renderer':
            with open(f'/proc/{it["id"]}/smaps_rollup', encoding='ascii') as file:
                most = max(most, sum(1024 * int(line.split()[1]) for line in file if line.startswith(('Private_Dirty', 'Private_Clean'))))
    return most


def opened(path, folder):
    browser = browsers.Chromium(folder)
    browser.open(f'file://{path}')
    browser.wait('document.documentElement.dataset.ready')
    return browser


def measured(path, rounds):
    """The least seconds until the first view, and from there until the program is ready; the rows of the other tables; the
    prover's verdict on the program."""
    texts = {'examples/bufferbloat.txt': open(f'{TOP}/examples/bufferbloat.txt', encoding='ascii').read(),
             'one flow': disassemble(one_flow(130_000)).decode(), 'dumbbell of 8 flows': disassemble(dumbbell(8, 20_000, droptail(50))).decode()}
    first, ready, rows = [], [], []
    for _ in range(rounds):
        with tempfile.TemporaryDirectory(ignore_cleanup_errors=True) as folder:
            browser = opened(path, folder)
            shown, done = (int(browser.value(f'document.documentElement.dataset.{it}')) / 1000 for it in ('shown', 'ready'))
            first.append(shown)
            ready.append(done - shown)
            verdict = browser.json('dataOf("about").verdict')
            browser.close()
    for name, text in texts.items():
        given, best = saved(f'page {name}', text), {}
        with tempfile.TemporaryDirectory(ignore_cleanup_errors=True) as folder:
            browser = opened(path, folder)
            words = json.dumps(text)
            for _ in range(rounds):
                figures, run = native(['figures'], given), native(['run'], given)
                status, counted = browser.json(f'({COUNT})({words})')
                status_of_run, events, size, read = browser.json(f'({READ})({words})')
                assert status == status_of_run == 0
                for key, value in (('figures', figures), ('run', run), ('page figures', counted), ('page run', read)):
                    best[key] = min(value, best.get(key, value))
            browser.close()
        with tempfile.TemporaryDirectory(ignore_cleanup_errors=True) as folder:
            browser = opened(path, folder)
            browser.json(f'({READ})({words})')      # the code for it stays
            browser.value('window.kept = null')
            before = held(browser)
            browser.json(f'({READ})({words})')
            time.sleep(AFTER)
            beside = (held(browser) - before - size) / events
            browser.value(f'simulator.openText({words}, "x")')
            time.sleep(AFTER)
            shown, *longest = browser.longest_task(SHOW)
            assert shown == events, (shown, events)
            browser.close()
        rows.append((name, events, size, best, longest, beside))
    return min(first), min(ready), rows, verdict


def threads(browser):
    """The seconds of the processor that the page's own thread took so far; only Chromium says them."""
    if isinstance(browser, browsers.Firefox):
        return None
    return next(it['value'] for it in browser.call('Performance.getMetrics')['metrics'] if it['name'] == 'TaskDuration')


def moved(path):
    """Of both browsers, and of runs below the bound of events: a name, the events, and of each step the seconds until it is seen and those
    that the page's own thread took of the processor."""
    for (name, text, begin), kind in itertools.product(MOVED, (browsers.Chromium, browsers.Firefox)):
        with tempfile.TemporaryDirectory(ignore_cleanup_errors=True) as folder:
            browser = kind(folder)
            browser.size(1400, 900)
            browser.open(f'file://{path}')
            browser.wait('document.documentElement.dataset.ready')
            browser.value(f'window.moved = {json.dumps(begin)}; simulator.openText({json.dumps(text())}, "moved")')
            browser.wait('document.documentElement.dataset.judged === "0"')
            browser.json('simulator.start().then(() => page.play(false))')
            events, took, own = browser.value('page.record.count'), [], []
            if kind is browsers.Chromium:
                browser.call('Performance.enable', timeDomain='threadTicks')
            for step in range(STEPS):
                before = threads(browser)
                took.append(browser.json(f'({MOVE})({1 if step // WAY % 2 else -1})') / 1000)
                if before is not None:
                    own.append(threads(browser) - before)
            browser.close()
            yield f'{name}, {kind.__name__}', events, sorted(took), sorted(own)


def judged(value, most, text):
    return text if value <= most else f'**{text}**'


def rows_of_moved(path):
    yield from table((f'A queue is moved, {STEPS} steps', 'Events', 'Seen after, median, ms', '95th percentile, ms', 'Of the page\'s own thread, median, ms', '95th percentile, ms', 'Load'), (
        (name, f'{events:,}', f'{1000 * took[len(took) // 2]:.0f}', judged(took[len(took) * 95 // 100], STEP, f'{1000 * took[len(took) * 95 // 100]:.0f}'),
         *((f'{1000 * own[len(own) // 2]:.0f}', f'{1000 * own[len(own) * 95 // 100]:.0f}') if own else ('-', '-')), f'{os.getloadavg()[0]:.1f}')
        for name, events, took, own in moved(path)))
    yield f'The bound is {1000 * STEP:.0f} ms. Beside other work on the machine a step waits for a processor; what its own thread takes of one does not grow so.'


def written(path, rounds):
    first, ready, rows, verdict = measured(path, rounds)
    version = subprocess.run([browsers.CHROMIUM, '--version'], capture_output=True, text=True, check=True).stdout.strip()
    yield '# What the page with the simulator costs'
    yield ''
    yield f'The page and the native program do the same in turn, and the least of {rounds} rounds counts. A number above its bound is bold. `bench/page.py` writes this page.'
    yield ''
    yield f'{made()}, load {os.getloadavg()[0]:.1f}; {version}, headless. The prover\'s verdict on the program in the page:'
    yield ''
    yield from ('```', *textwrap.wrap(verdict, 120, break_long_words=False, break_on_hyphens=False), '```')
    yield ''
    yield from table(('Of opening the page', 'Seconds', 'At most'), (
        ('until the first view', judged(first, FIRST_VIEW, f'{first:.2f}'), f'{FIRST_VIEW:.0f}'),
        ('from there until the program is compiled', judged(ready, MODULE, f'{ready:.2f}'), f'{MODULE:.0f}')))
    yield from table(('Run', 'Events', 'Trace, MB', '`figures` native, s', 'in the page, s', 'times', '`run` native, s', 'in the page, read, s', 'times'), (
        (name, f'{events:,}', f'{size / 1e6:.1f}', f'{best["figures"]:.3f}', f'{best["page figures"]:.3f}',
         judged(best['page figures'], FIGURES * best['figures'], f'{best["page figures"] / best["figures"]:.1f}'),
         f'{best["run"]:.3f}', f'{best["page run"]:.3f}', judged(best['page run'], RUN * best['run'], f'{best["page run"] / best["run"]:.1f}'))
        for name, events, size, best, _, _ in rows))
    yield f'The bounds are {FIGURES} and {RUN} times.'
    yield ''
    yield from table(('Run', 'Shown with its figures, longest task, ms', 'of a processor, ms', 'Read, bytes an event beside the trace'), (
        (name, *(judged(it, FREEZE, f'{1000 * it:.0f}') for it in longest), judged(beside, MEMORY, f'{beside:.0f}') if events > MANY else '-')
        for name, events, _, _, longest, beside in rows))
    yield f'The bounds are {1000 * FREEZE:.0f} ms, and {MEMORY} bytes an event where there are more than {MANY:,}.'
    yield ''
    yield from rows_of_moved(path)


def main():
    reader = argparse.ArgumentParser(description='The page with the simulator beside the native program.')
    reader.add_argument('--page', default=MADE)
    reader.add_argument('--rounds', type=int, default=5)
    reader.add_argument('--print', action='store_true')
    reader.add_argument('--moved', action='store_true')
    words = reader.parse_args()
    if not os.path.exists(words.page):
        sys.exit(f'{words.page} is not there: make page')
    lines = []
    path = os.path.abspath(words.page)
    for line in rows_of_moved(path) if words.moved else written(path, words.rounds):
        print(line, flush=True)
        lines.append(line)
    if not (words.print or words.moved):
        with open(PAGE, 'w', encoding='utf-8') as file:
            file.write('\n'.join(lines).rstrip('\n') + '\n')


if __name__ == '__main__':
    main()
