"""Tests of the built program's posture: how it is linked (readelf), what it asks of the C library, which files it opens and
which memory it maps (strace), that no environment variable changes what it does, and the modes of what is installed. It goes
after `make run`.
"""
import os
import re
import shutil
import stat
import subprocess

import pytest

from clone import BIN, TOP, BUILT as PROGRAM, tool

ONE_SEGMENT = os.path.join(TOP, 'examples', 'one_segment.txt')
WIDE = 'islands', '--islands', '4', '--flows', '10', '--rate', '200M', '--between', '40ms', '--end', '600ms'
built = pytest.mark.skipif(not os.path.exists(PROGRAM), reason='the program is not built: make run')
by_readelf = pytest.mark.skipif(not shutil.which('readelf'), reason='no readelf: apt-get install binutils')
by_strace = pytest.mark.skipif(not shutil.which('strace'), reason='no strace: apt-get install strace')
# All that the program asks of others. What is new here is to be looked at: whether it reads the environment, say.
ASKED = {'__cxa_finalize', '__errno_location', '__libc_start_main', '__sysv_signal', '__write', '__x86_get_cpuid_feature_leaf',
         '_exit', 'abort', 'close', 'free', 'isatty',
         'malloc', 'memcpy', 'memmove', 'memset', 'open', 'pthread_attr_destroy', 'pthread_attr_init', 'pthread_attr_setguardsize',
         'pthread_create', 'pthread_detach', 'pthread_join', 'pthread_self', 'read', 'realloc', 'sched_getaffinity', 'sched_yield',
         'syscall', 'sysconf', 'write'}
WEAK = {'_ITM_deregisterTMCloneTable', '_ITM_registerTMCloneTable', '__gmon_start__'}      # of the start files, and of nobody
# What the loader and the C library open before the program begins.
LOADER = re.compile(r'/etc/ld\.so\.(preload|cache)|/(usr/)?lib(64)?/(\S+/)?libc\.so\.6|'
                    r'(/(usr/)?lib(64)?|/usr/local/lib)(/\S*)?|')
HOSTILE = {'HOME': '/nowhere', 'LANG': 'de_DE.UTF-8', 'LC_ALL': 'tr_TR.UTF-8', 'LANGUAGE': 'de', 'TZ': 'Pacific/Auckland',
           'COLUMNS': '7', 'LINES': '3', 'TERM': 'dumb', 'NO_COLOR': '1', 'CLICOLOR_FORCE': '1', 'FORCE_COLOR': '1',
           'TMPDIR': '/nowhere', 'PATH': '/nowhere', 'PWD': '/nowhere', 'RUST_BACKTRACE': 'full', 'RUST_LOG': 'trace',
           'RUST_MIN_STACK': '1', 'RAYON_NUM_THREADS': '1', 'OMP_NUM_THREADS': '1', 'RT_JOBS': '1', 'TCPSIM': '1',
           'TCPSIM_WORKERS': '9', 'TCPSIM_LOG': '9', 'DEBUG': '1', 'CI': 'true', 'SOURCE_DATE_EPOCH': '1'}


def ran(*words, **more):
    return subprocess.run([str(it) for it in words], capture_output=True, check=False, timeout=1800,
                          **{'stdin': subprocess.DEVNULL, **more})


def elf(*options):
    done = ran('readelf', '-W', *options, PROGRAM, env={**os.environ, 'LC_ALL': 'C'})
    assert done.returncode == 0, done.stderr
    return done.stdout.decode()


@pytest.fixture(scope='module')
def wide(tmp_path_factory):
    """A scenario whose windows are shared by threads."""
    path = tmp_path_factory.mktemp('posture') / 'wide.txt'
    assert tool('net', *WIDE, '-o', path).returncode == 0
    return str(path)


# ---- how it is linked

@built
@by_readelf
def test_it_is_position_independent():
    assert re.search(r'^  Type: +DYN \(Position-Independent Executable file\)$', elf('-h'), re.M)
    assert re.search(r'\(FLAGS_1\) +Flags: .*\bPIE\b', elf('-d'))
    assert 'TEXTREL' not in elf('-d')


@built
@by_readelf
def test_its_relocations_are_read_only():
    """Full RELRO: all symbols are bound as it starts, and what they are bound by is read-only from there on."""
    dynamic = elf('-d')
    assert re.search(r'\(FLAGS\) +.*\bBIND_NOW\b', dynamic) and re.search(r'\(FLAGS_1\) +Flags: .*\bNOW\b', dynamic)
    at, size = (int(it, 16) for it in re.search(r'^  GNU_RELRO +\S+ (0x\w+) \S+ \S+ (0x\w+) R ', elf('-l'), re.M).groups())
    tables = re.findall(r' \.got(?:\.plt)? +PROGBITS +(\w+) \w+ (\w+) ', elf('-S'))
    assert tables
    for place, length in tables:
        assert at <= int(place, 16) and int(place, 16) + int(length, 16) <= at + size


@built
@by_readelf
def test_no_memory_is_both_written_and_run():
    segments = re.findall(r'^  (\w+) +0x\S+ 0x\S+ 0x\S+ 0x\S+ 0x\S+ ([RWE ]{3}) ', elf('-l'), re.M)
    flags = dict(segments)
    assert flags['GNU_STACK'].replace(' ', '') == 'RW'
    assert len([it for it, _ in segments if it == 'LOAD']) >= 2
    assert not [it for it in segments if 'W' in it[1] and 'E' in it[1]]


@built
@by_readelf
def test_it_is_linked_with_libc_alone_and_searches_nowhere():
    dynamic = elf('-d')
    assert re.findall(r'\(NEEDED\) +Shared library: \[(.*)\]', dynamic) == ['libc.so.6']
    assert not re.search(r'\((RPATH|RUNPATH|AUXILIARY|FILTER|AUDIT|DEPAUDIT)\)', dynamic)


@built
@by_readelf
def test_what_it_asks_of_the_c_library():
    """Nothing that reads the environment, starts a program, changes files or opens a connection."""
    rows = re.findall(r'^ *\d+: \w+ +\d+ \w+ +(\w+) +\w+ +UND (\S+?)(?:@\S+)?(?: \(\d+\))?$', elf('--dyn-syms'), re.M)
    found = {name: bind for bind, name in rows}
    assert len(found) > 20 and set(found) <= ASKED | WEAK
    assert all(found[name] == 'WEAK' for name in WEAK & set(found))
    assert not {'getenv', 'secure_getenv', 'environ', '__environ', '_environ', 'execve', 'system', 'popen', 'socket'} & set(found)


# ---- what it opens

def traced(tmp_path, *words, **more):
    """What a run calls that has to do with files, networks, processes and the protection of memory: (name, arguments)."""
    log = tmp_path / 'strace'
    done = ran('strace', '-f', '-s', '4096', '-e', 'trace=%file,%network,%process,mmap,mprotect', '-o', log, PROGRAM, *words, **more)
    return done, re.findall(r'^\d+ +(\w+)\((.*)$', log.read_text(), re.M)


def named_in_commands():
    """The files that docs/COMMANDS.md names."""
    with open(os.path.join(TOP, 'docs', 'COMMANDS.md'), encoding='utf-8') as file:
        return set(re.findall(r'`(/(?:dev|sys|proc|etc)/[\w/.]+)`', file.read()))


RUNS = {
    'run': ('run', ONE_SEGMENT), 'asm': ('asm', ONE_SEGMENT), 'dis': ('dis', ONE_SEGMENT), 'figures': ('figures', '--progress', ONE_SEGMENT),
    'debug': ('debug', ONE_SEGMENT), 'explain': ('explain', 'E4'), 'help': ('--help',), 'version': ('--version',),
    'mistaken': ('walk',), 'no file': ('run', '/nowhere/one.txt'), 'refused': ('run', '--explain', os.path.join(TOP, 'Makefile')),
    'standard input': ('run',), 'workers': ('run', '--workers', '4', '--groups', 'auto', 'WIDE'),
    'debug by workers': ('debug', '--workers', '2', '--groups', 'each', ONE_SEGMENT)}


@built
@by_strace
@pytest.mark.parametrize('name', RUNS)
def test_it_opens_no_file_that_formats_does_not_name(name, wide, tmp_path):
    words = [wide if it == 'WIDE' else it for it in RUNS[name]]
    done, found = traced(tmp_path, *words, stdin=subprocess.DEVNULL)
    assert done.returncode in (0, 1, 2, 3)
    assert [call for call, _ in found].count('execve') == 1
    known, given = named_in_commands(), set(words)
    assert known == {'/dev/null', '/sys/devices/system/cpu/online', '/sys/fs/cgroup/cpu.max'}
    opened = 0
    for call, arguments in found:
        if call in ('execve', 'exit_group', 'mmap', 'mprotect', 'exit') or 'AT_EMPTY_PATH' in arguments:
            continue
        if call in ('clone', 'clone3'):
            assert 'workers' in name
            continue
        assert call in ('openat', 'open', 'access', 'newfstatat', 'readlink'), (call, arguments)
        path = re.search(r'"((?:[^"\\]|\\.)*)"', arguments)[1]
        if path in known or path in given:
            opened += 1
            assert call == 'openat' and ('O_RDONLY' in arguments or path == '/dev/null'), arguments
            assert 'O_CREAT' not in arguments and 'O_CLOEXEC' in arguments
        else:
            assert LOADER.fullmatch(path), (call, arguments)
            assert not opened, f'{path} is opened once the program has begun'
    assert opened >= 3


@built
@by_strace
def test_no_memory_becomes_both_written_and_run(wide, tmp_path):
    done, found = traced(tmp_path, 'run', '--workers', '4', '--groups', 'auto', wide)
    maps = [arguments for call, arguments in found if call in ('mmap', 'mprotect')]
    assert done.returncode == 0 and len(maps) > 10
    assert not [it for it in maps if 'PROT_EXEC' in it and 'PROT_WRITE' in it]
    begun = next(at for at, (call, arguments) in enumerate(found) if '/dev/null' in arguments)
    assert not [it for _, it in found[begun:] if 'PROT_EXEC' in it]


# ---- the environment

@built
@pytest.mark.parametrize('name', RUNS)
def test_no_environment_variable_changes_what_it_does(name, wide):
    words = [wide if it == 'WIDE' else it for it in RUNS[name]]
    typed = b'step 3\nwhy 0\nhelp\n'
    first, second, third = (ran(PROGRAM, *words, env=env, stdin=None, input=typed) if name.startswith('debug') else
                            ran(PROGRAM, *words, env=env) for env in ({}, HOSTILE, dict(os.environ)))
    for other in (second, third):
        assert (first.returncode, first.stdout, first.stderr) == (other.returncode, other.stdout, other.stderr)


# ---- what is installed

@pytest.mark.parametrize('umask', [0o022, 0o077, 0o000], ids=oct)
def test_modes_of_what_is_installed(umask, tmp_path):
    """Whatever the umask is, and with the model for the program where that is not built."""
    program = PROGRAM if os.path.exists(PROGRAM) else os.path.join(BIN, 'tcpsim-model')
    done = ran('make', '-s', f'PROGRAM={program}', f'PREFIX={tmp_path}/there', 'install', cwd=TOP, preexec_fn=lambda: os.umask(umask))
    assert done.returncode == 0, done.stderr
    found = list((tmp_path / 'there').rglob('*'))
    assert len(found) > 200
    for path in [tmp_path / 'there', *found]:
        state = path.lstat()
        if path.is_symlink():
            assert '/' not in os.readlink(path) and path.exists(), path
        elif path.is_dir():
            assert stat.S_IMODE(state.st_mode) == 0o755, path
        else:
            assert stat.S_IMODE(state.st_mode) == (0o755 if path.parent.name == 'bin' else 0o644), path
        assert (state.st_uid, state.st_gid) == (os.geteuid(), os.getegid())
    names = {str(it.relative_to(tmp_path / 'there' / 'share/doc/tcpsim')) for it in (tmp_path / 'there' / 'share/doc/tcpsim').rglob('*')}
    assert {'LICENSE-MIT', 'LICENSE-APACHE', 'THIRD-PARTY', 'CHANGELOG.md', 'SECURITY.md', 'README.md', 'docs/index.md'} <= names
