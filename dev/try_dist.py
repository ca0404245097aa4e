#!/usr/bin/env python3
"""Tries what `make dist` wrote as a new user would (`make test-dist`): in a Debian 12 that debootstrap makes, with no toolchain
and no clone.

    dev/try_dist.py [--base DIR] [--keep] [DIST]

DIST is out/dist where it is left out. --base names a root that `debootstrap --variant=minbase bookworm DIR` made before; it is
copied, which saves minutes. --keep leaves the root where it was tried, and says where. It wants root, debootstrap, and
Debian's archive. The last line is 'N passed, M failed'.

1. The tarball's program where there is nothing but libc, and its tools once python3 is there, with an empty environment.
2. The .deb by apt, with nothing that it recommends, as an ordinary user and as root: runs, a sweep, a page, man pages, a
   completion; then it is purged, and every file of the root is what it was.
3. The .deb with what it recommends: a picture; then it is removed.
4. The wheel in a virtual environment by --no-index.
"""
import argparse
import contextlib
import glob
import hashlib
import os
import re
import shutil
import signal
import subprocess
import sys
import tempfile

TOP = os.path.dirname(os.path.dirname(os.path.abspath(__file__)))
sys.path[1:1] = [os.path.join(TOP, 'dev'), os.path.join(TOP, 'python')]

from tcpsim import VERSIONS, __version__  # noqa: E402

SUITE, ARCHIVE = 'bookworm', 'http://deb.debian.org/debian'
PATIENCE = 3600
ENVIRONMENT = {'PATH': '/usr/sbin:/usr/bin:/sbin:/bin', 'DEBIAN_FRONTEND': 'noninteractive', 'LC_ALL': 'C.UTF-8', 'HOME': '/root'}
APT = 'apt-get', '-q', '-y', '-o', 'APT::Sandbox::User=root', '-o', 'Dpkg::Use-Pty=0', '-o', 'Dpkg::Options::=--force-unsafe-io'
USER = 'student'
# What apt, dpkg, ldconfig and man-db write of their own when a package comes and goes.
KEEPS_BOOKS = re.compile(r'/(var/(lib/(dpkg|apt)|log|cache)|etc/ld\.so\.cache|tmp|proc|sys|dev|home|root)(/|$)')
EXAMPLES = '/usr/share/doc/tcpsim/examples'
# The bash of a terminal: completions as bash-completion loads them, of a line up to the cursor.
COMPLETE = '''
. /usr/share/bash-completion/bash_completion
_completion_loader "$1"
COMP_LINE="$*" COMP_WORDS=("$@") COMP_CWORD=$(($# - 1)) COMP_POINT=${#COMP_LINE}
$(complete -p "$1" | sed 's/.*-F \\([^ ]*\\).*/\\1/') "$1" "${@: -1}" "${@: -2:1}"
printf '%s\\n' "${COMPREPLY[@]}"
'''


class Failed(Exception):
    """What was not as it is wanted."""


class Root:
    """A Debian of its own."""

    def __init__(self, place):
        self.place = place

    def path(self, name):
        return os.path.join(self.place, name.lstrip('/'))

    def run(self, *words, user=None, env=ENVIRONMENT, cwd='/', status=0):
        """What a command writes on both; Failed where its status is another."""
        inside = ['chroot', *(['--userspec', f'{user}:{user}'] if user else []), self.place, '/usr/bin/env', '-i', '--chdir', cwd,
                  *(f'{name}={value}' for name, value in env.items()), *words]
        done = subprocess.run(inside, capture_output=True, text=True, errors='replace', stdin=subprocess.DEVNULL, check=False,
                              timeout=PATIENCE, cwd='/', env={'PATH': os.environ.get('PATH', os.defpath)})
        if done.returncode != status:
            raise Failed(f'{" ".join(words)}: status {done.returncode}\n{done.stdout}{done.stderr}')
        return done.stdout + done.stderr if status else done.stdout

    def files(self):
        """Every file and folder of the root but those in which books are kept: what it is, its mode and its sum."""
        found = {}
        for at, folders, names in os.walk(self.place):
            inside = at[len(self.place):] or '/'
            folders[:] = [it for it in folders if not KEEPS_BOOKS.match(os.path.join(inside, it))]
            for name in (*names, *folders):
                path, key = os.path.join(at, name), os.path.join(inside, name)
                if KEEPS_BOOKS.match(key):
                    continue
                state = os.lstat(path)
                if os.path.islink(path):
                    what = os.readlink(path)
                elif os.path.isfile(path):
                    with open(path, 'rb') as file:
                        what = hashlib.sha256(file.read()).hexdigest()
                else:
                    what = ''
                found[key] = oct(state.st_mode), state.st_uid, state.st_gid, what
        return found


def want(found, what):
    """Failed unless something holds."""
    if not found:
        raise Failed(what)


def same(found, wanted, what):
    """Failed unless two are equal."""
    want(found == wanted, f'{what}: {found!r}, wanted {wanted!r}')


@contextlib.contextmanager
def debian(base, keep):
    """A root in a temporary folder."""
    place = tempfile.mkdtemp(prefix='try-dist-', dir='/var/tmp')
    try:
        root = Root(os.path.join(place, 'root'))
        if base:
            subprocess.run(['cp', '-a', base, root.place], check=True)
        else:
            print(f'debootstrap: a Debian {SUITE}, which takes minutes', flush=True)
            done = subprocess.run(['debootstrap', '--variant=minbase', SUITE, root.place, ARCHIVE], capture_output=True, text=True,
                                  check=False, stdin=subprocess.DEVNULL)
            if done.returncode:
                raise Failed(f'debootstrap: {done.stdout[-2000:]}{done.stderr}')
        shutil.copyfile('/etc/resolv.conf', root.path('etc/resolv.conf'))
        os.chmod(root.path('dev/shm'), 0o1777)          # as a Debian that runs has it: semaphores are there
        # No service starts in a root that only a test has.
        with open(root.path('usr/sbin/policy-rc.d'), 'w', encoding='ascii') as file:
            file.write('#!/bin/sh\nexit 101\n')
        os.chmod(root.path('usr/sbin/policy-rc.d'), 0o755)
        yield root
    finally:
        if keep:
            print(f'the root is kept: {place}')
        else:
            shutil.rmtree(place, ignore_errors=True)


def trace_of(root, name):
    with open(root.path(f'{EXAMPLES}/{name}.trace'), encoding='ascii') as file:
        return file.read()


# ---- what is tried, in this order

def sums_are_right(_root, dist):
    done = subprocess.run(['sha256sum', '-c', '--strict', 'SHA256SUMS'], cwd=dist, capture_output=True, text=True, check=False)
    same(done.returncode, 0, done.stdout + done.stderr)


def no_toolchain_and_no_clone(root, _dist):
    for name in ('usr/local/bin/rt', 'opt/rattle', 'work'):
        want(not os.path.lexists(root.path(name)), f'{name} is in the root')


def the_tarball_where_there_is_libc_alone(root, dist):
    want(not os.path.exists(root.path('usr/bin/python3')), 'python3 is in the root already')
    os.makedirs(root.path('home/a place'))
    subprocess.run(['tar', '-xzf', glob.glob(f'{dist}/*.tar.gz')[0], '-C', root.path('home/a place')], check=True)
    top = f'/home/a place/{os.listdir(root.path("home/a place"))[0]}'
    with open(root.path(f'{top}/share/doc/tcpsim/examples/one_segment.trace'), encoding='ascii') as file:
        trace = file.read()
    same(root.run(f'{top}/bin/tcpsim', 'run', f'{top}/share/doc/tcpsim/examples/one_segment.txt', env={}), trace, 'trace')
    want('refused E2 line 1' in root.run(f'{top}/bin/tcpsim', 'run', '/etc/hostname', env={}, status=1), 'a refusal')


def apt_has_its_lists(root, _dist):
    root.run(*APT, 'update')
    root.run(*APT, 'install', '--no-install-recommends', 'python3', 'man-db', 'bash-completion')
    root.run('useradd', '--create-home', USER)


def the_tarball_with_an_empty_environment(root, _dist):
    top = f'/home/a place/{os.listdir(root.path("home/a place"))[0]}'
    home = f'/home/{USER}'

    def empty(name, *words):
        return root.run(f'{top}/bin/{name}', *words, user=USER, env={}, cwd=home)
    empty('tcpsim-net', 'dumbbell', '--flows', '2', '--rate', '1M', '--end', '2s', '-o', 'two.txt')
    same(empty('tcpsim-run', 'two.txt'), empty('tcpsim', 'run', 'two.txt'), 'a run by a tool and by the program')
    same(empty('tcpsim-sweep', 'two.txt', '--set', 'end=1s,2s', '--csv').count('\n'), 3, 'rows of a sweep')
    want('Jain' in empty('tcpsim-flows', 'two.txt'), 'figures')
    shutil.rmtree(root.path('home/a place'))


def the_deb_by_apt(root, dist):
    shutil.copy(glob.glob(f'{dist}/*.deb')[0], root.path('tmp/tcpsim.deb'))
    root.before = root.files()
    said = root.run(*APT, 'install', '--no-install-recommends', '/tmp/tcpsim.deb')
    want('Warning' not in said and 'warning' not in said, said)
    want(f'{__version__}' in root.run('dpkg-query', '-W', 'tcpsim'), 'the version that dpkg has')
    want(glob.glob(root.path('usr/lib/tcpsim/tcpsim/__pycache__/*.pyc')), 'modules are compiled as the package is installed')


def each_command_says_its_version(root, _dist):
    names = sorted(os.path.basename(it) for it in glob.glob(root.path('usr/bin/tcpsim*')))
    same(len(names), 11, 'commands')
    for name in names:
        if name == 'tcpsim':
            want(re.fullmatch(r'tcpsim \d+\.\d+\.\d+.*\n', root.run(name, '--version')), f'{name} --version')
        elif name == 'tcpsim-plot':
            want('matplotlib is not there: apt-get install python3-matplotlib' in root.run(name, 'x', user=USER, status=1), name)
        else:
            same(root.run(name, '--version', user=USER), f'{name} {VERSIONS}\n', name)


def runs_and_figures(root, _dist):
    for name in ('one_segment', 'two_timeouts_in_a_row', 'parking_lot_of_three_routers'):
        text = f'{EXAMPLES}/{name}.txt'
        for words in (('tcpsim', 'run', text), ('tcpsim-run', text)):
            same(root.run(*words, user=USER) == trace_of(root, name), True, ' '.join(words))
    same(root.run('tcpsim-run', '--model', f'{EXAMPLES}/one_segment.txt', user=USER), trace_of(root, 'one_segment'), 'the model')
    want('Jain' in root.run('tcpsim-flows', f'{EXAMPLES}/two_flows_share_fairly.txt', user=USER), 'figures')
    root.run('tcpsim-stalls', f'{EXAMPLES}/two_timeouts_in_a_row.txt', user=USER)
    root.run('tcpsim-follow', f'{EXAMPLES}/two_timeouts_in_a_row.txt', '--flow', 'f', '--byte', '4000', user=USER)
    want('doubled once' in root.run('tcpsim-time', f'{EXAMPLES}/two_timeouts_in_a_row.txt', user=USER), 'where the time went')


def a_sweep_and_a_page(root, _dist):
    home = f'/home/{USER}'
    root.run('tcpsim-net', 'dumbbell', '--flows', '4', '--rate', '10M', '--rtt', '40ms,80ms', '--end', '2s', '-o', 'four.txt',
             user=USER, cwd=home)
    rows = root.run('tcpsim-sweep', 'four.txt', '--set', 'pq.queue=droptail:10,50', '--csv', user=USER, cwd=home).splitlines()
    same([len(rows), rows[0].startswith('pq.queue,')], [3, True], 'a sweep')
    root.run('tcpsim-replay', 'four.txt', '-o', 'four.html', user=USER, cwd=home)
    with open(root.path(f'{home}/four.html'), encoding='utf-8') as file:
        page = file.read()
    want('version:"3.' in page and 'src=' not in page.partition('<body')[0], 'a page with d3 in it')
    root.run('tcpsim-run', f'{home}/four.txt')  # as root, who may write below /usr/lib


def man_pages(root, _dist):
    for path in glob.glob(root.path('usr/bin/tcpsim*')):
        page = root.run('man', '-P', 'cat', os.path.basename(path), user=USER)
        want(os.path.basename(path) in page and 'LICENSE-MIT' in page and f'tcpsim {__version__}' in page, f'man {path}')
    want('tcpsim-sweep (1)' in root.run('man', '-k', 'tcpsim') or root.run('mandb', '-q') == '', 'man -k')


def a_completion(root, _dist):
    def completed(*words):
        return root.run('bash', '-c', COMPLETE, 'bash', *words, user=USER).split()
    same(completed('tcpsim', 'fig'), ['figures'], 'tcpsim fig')
    same(completed('tcpsim', 'run', '--wor'), ['--workers'], 'tcpsim run --wor')
    want('--series' in completed('tcpsim-flows', '--se'), 'tcpsim-flows --se')
    for name in ('zsh/vendor-completions/_tcpsim', 'fish/vendor_completions.d/tcpsim.fish'):
        want(os.path.isfile(root.path(f'usr/share/{name}')), name)


def documents(root, _dist):
    for name in ('README.md', 'CHANGELOG.md', 'SECURITY.md', 'THIRD-PARTY', 'LICENSE-MIT', 'LICENSE-APACHE', 'MANIFEST',
                 'copyright', 'docs/TUTORIAL.md'):
        path = root.path(f'usr/share/doc/tcpsim/{name}')
        want(os.path.getsize(path) and os.stat(path).st_mode & 0o777 == 0o644, name)


def a_removal_leaves_nothing(root, _dist):
    root.run(*APT, 'purge', 'tcpsim')
    after = root.files()
    left = sorted({it for it in after if after[it] != root.before.get(it)} | {it for it in root.before if it not in after})
    same(left, [], 'what is not as it was')
    want(not [it for it in os.listdir(root.path('var/lib/dpkg/info')) if it.startswith('tcpsim')], 'what dpkg keeps')


def a_picture_with_what_is_recommended(root, _dist):
    recommended = root.run('dpkg-deb', '-f', '/tmp/tcpsim.deb', 'Recommends').replace(',', ' ').split()
    same(recommended, ['python3-matplotlib'], 'what is recommended')
    root.run(*APT, 'install', '--no-install-recommends', '/tmp/tcpsim.deb', *recommended)       # and no more than that
    home = f'/home/{USER}'
    for ending, begin in (('png', b'\x89PNG'), ('svg', b'<?xml'), ('pdf', b'%PDF')):
        root.run('tcpsim-plot', f'{EXAMPLES}/sawtooth_of_congestion_avoidance.txt', '-o', f's.{ending}', user=USER, cwd=home,
                 env={**ENVIRONMENT, 'HOME': home})
        with open(root.path(f'{home}/s.{ending}'), 'rb') as file:
            same(file.read(len(begin)), begin, ending)


def a_removal_leaves_no_name(root, _dist):
    root.run(*APT, 'remove', '--autoremove', 'tcpsim')
    same(sorted(it for it in root.files() if 'tcpsim' in it), [], 'what is left of it')


def the_wheel_with_no_network(root, dist):
    home = f'/home/{USER}'
    root.run(*APT, 'install', '--no-install-recommends', 'python3-venv')
    shutil.copy(glob.glob(f'{dist}/*.whl')[0], root.path(home))
    env = {**ENVIRONMENT, 'HOME': home}
    root.run('python3', '-m', 'venv', 'V', user=USER, cwd=home, env=env)
    root.run('V/bin/pip', 'install', '-q', '--no-index', glob.glob(root.path(f'{home}/*.whl'))[0].rpartition('/')[2], user=USER,
             cwd=home, env=env)
    root.run('V/bin/tcpsim-net', 'dumbbell', '--flows', '2', '--rate', '1M', '--end', '1s', '-o', 'wheel.txt', user=USER, cwd=home)
    want(re.search(r'\nend \d+\n$', root.run('V/bin/tcpsim-run', 'wheel.txt', user=USER, cwd=home)), 'a run')
    root.run('V/bin/tcpsim-replay', 'wheel.txt', '-o', 'wheel.html', user=USER, cwd=home)
    root.run('V/bin/pip', 'uninstall', '-q', '-y', 'tcpsim', user=USER, cwd=home, env=env)
    same(glob.glob(root.path(f'{home}/V/bin/tcpsim*')) + glob.glob(root.path(f'{home}/V/lib/*/site-packages/tcpsim*')), [],
         'what pip leaves')


TRIES = (sums_are_right, no_toolchain_and_no_clone, the_tarball_where_there_is_libc_alone, apt_has_its_lists,
         the_tarball_with_an_empty_environment, the_deb_by_apt, each_command_says_its_version, runs_and_figures, a_sweep_and_a_page,
         man_pages, a_completion, documents, a_removal_leaves_nothing, a_picture_with_what_is_recommended, a_removal_leaves_no_name,
         the_wheel_with_no_network)


def main():
    reader = argparse.ArgumentParser(description='Tries what make dist wrote in a Debian of its own.')
    reader.add_argument('--base', metavar='DIR', help='a root that debootstrap made before, which is copied')
    reader.add_argument('--keep', action='store_true', help='leave the root where it is')
    reader.add_argument('dist', metavar='DIST', nargs='?', default=os.path.join(TOP, 'out', 'dist'), help='left out: out/dist')
    words = reader.parse_args()
    if os.geteuid() or not (words.base or shutil.which('debootstrap')):
        print('try_dist: this wants root and debootstrap: apt-get install debootstrap', file=sys.stderr)
        return 2
    for number in (signal.SIGTERM, signal.SIGHUP):
        signal.signal(number, lambda number, _: sys.exit(128 + number))         # the root is taken away
    failed = 0
    try:
        with debian(words.base, words.keep) as root:
            for attempt in TRIES:
                try:
                    attempt(root, os.path.abspath(words.dist))
                    print(f'passed: {attempt.__name__.replace("_", " ")}', flush=True)
                except (Failed, OSError, subprocess.SubprocessError, IndexError) as why:
                    failed += 1
                    print(f'FAILED: {attempt.__name__.replace("_", " ")}: {why}', flush=True)
    except Failed as why:
        print(f'try_dist: {why}', file=sys.stderr)
        return 1
    print(f'{len(TRIES) - failed} passed, {failed} failed')
    return 1 if failed else 0


if __name__ == '__main__':
    sys.exit(main())
