"""What the measuring scripts share: the program, how it is counted and timed, and the sections of bench/RESULTS.md."""
import argparse
import os
import re
import subprocess
import time

TOP = os.path.dirname(os.path.dirname(os.path.abspath(__file__)))
BENCH = os.path.join(TOP, 'bench')
PROGRAM = os.path.join(TOP, 'crates', 'tcpsim', 'out', 'tcpsim')
RESULTS = os.path.join(BENCH, 'RESULTS.md')
# Fixed, since a starting program looks through its environment.
ENVIRONMENT = {'PATH': '/usr/bin:/bin', 'LC_ALL': 'C'}
CALLGRIND = ('valgrind', '--tool=callgrind', '--callgrind-out-file=/dev/null')


def words_of(description):
    """The words of a script, of which the program is one."""
    words = argparse.ArgumentParser(description=description, formatter_class=argparse.RawDescriptionHelpFormatter)
    words.add_argument('--program', type=os.path.abspath, default=PROGRAM, help='else the built one')
    return words


def at_priority(priority):
    """What a timed run's words begin with, where it has a real-time priority, 1 to 99."""
    return ('chrt', '-f', str(priority)) if priority else ()


def timed(call, *words):
    """The seconds of a call."""
    begin = time.perf_counter()
    call(*words)
    return time.perf_counter() - begin


def resident(process, before=0):
    """The most memory that was resident so far (VmHWM), in bytes; `before` once the process has ended."""
    with open(f'/proc/{process.pid}/status') as status:
        found = re.search(r'VmHWM:\s+(\d+) kB', status.read())
    return int(found[1]) * 1024 if found else before


def within(value, most):
    return 'yes' if value <= most else 'no'


def number(pattern, said):
    return int(re.search(pattern, said)[1].replace(',', ''))


def instructions(said):
    """Of what callgrind has said at its end."""
    return number(r'Collected : (\d+)', said)


def saved(name, scenario):
    """The path of a scenario's file in bench/work."""
    work = os.path.join(BENCH, 'work')
    os.makedirs(work, exist_ok=True)
    path = os.path.join(work, re.sub('[^a-z0-9]+', '_', name.lower()) + '.txt')
    with open(path, 'w') as file:
        file.write(scenario)
    return path


def processor():
    with open('/proc/cpuinfo') as info:
        found = re.search(r'model name\s*:\s*(.*)', info.read())
    return found[1] if found else 'an unnamed processor'


def made():
    """When, of which commit and on which machine a page is made."""
    commit = subprocess.run(['git', 'rev-parse', '--short', 'HEAD'], cwd=TOP, capture_output=True, check=False, text=True).stdout.strip()
    return f'{time.strftime("%Y-%m-%d")}, commit {commit or "unknown"}, {processor()}, {os.cpu_count()} processors'


def table(heads, rows):
    yield '| ' + ' | '.join(heads) + ' |'
    yield '|---' + '|--:' * (len(heads) - 1) + '|'
    for row in rows:
        yield '| ' + ' | '.join(row) + ' |'
    yield ''


def put_section(head, lines):
    """Puts a section of this head in the place of the one that is there, or at the end, and prints it."""
    made = '\n'.join(lines).rstrip('\n')
    with open(RESULTS) as file:
        before, _, behind = file.read().partition('\n' + head)
    later = re.search(r'^## ', behind, re.M)
    with open(RESULTS, 'w') as file:
        file.write(before.rstrip('\n') + '\n\n' + made + '\n' + ('\n' + behind[later.start():] if later else ''))
    print(made)
