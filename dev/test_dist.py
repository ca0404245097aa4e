"""Tests of what `make dist` writes: the same bytes twice, what is in each product and with which modes, the tarball run with
an empty environment, the wheel in a virtual environment with no network. `make test-dist` tries the .deb in a Debian of its
own. It goes after `make run`.
"""
import hashlib
import importlib.util
import os
import re
import shutil
import subprocess
import sys
import tarfile
import zipfile

import pytest

import dist
import pass_gate
from clone import TOP
from tcpsim import VERSIONS, __version__

ONE_SEGMENT = os.path.join(TOP, 'examples', 'one_segment.txt')
LACKS = [name for name in ('venv', 'ensurepip', 'setuptools', 'wheel') if not importlib.util.find_spec(name)]
pytestmark = [pytest.mark.skipif(not os.path.exists(dist.PROGRAM), reason='the program is not built: make run'),
              pytest.mark.skipif(not shutil.which('dpkg-deb'), reason='dpkg-deb is not there: apt-get install dpkg'),
              pytest.mark.skipif(bool(LACKS), reason=f'{" ".join(LACKS)} not there: apt-get install python3-venv '
                                 'python3-setuptools python3-wheel')]
TIME = 1_700_000_000
PATIENCE = 1800         # seconds; one packing took 275 on a machine with a load of 40, 11 of a processor


def ran(*words, **more):
    return subprocess.run([str(it) for it in words], capture_output=True, text=True, check=False, timeout=PATIENCE,
                          stdin=subprocess.DEVNULL, **more)


def pack(folder, umask, **variables):
    done = ran(sys.executable, os.path.join(TOP, 'dev', 'dist.py'), '-o', folder, cwd='/', preexec_fn=lambda: os.umask(umask),
               env={**os.environ, 'SOURCE_DATE_EPOCH': str(TIME), **variables})
    assert done.returncode == 0, done.stderr
    return done.stdout


@pytest.fixture(scope='module')
def made(tmp_path_factory):
    """A folder with the products."""
    folder = tmp_path_factory.mktemp('dist') / 'first'
    pack(folder, 0o022)
    return folder


@pytest.fixture(scope='module')
def unpacked(made, tmp_path_factory):
    """The tarball's folder, in a folder whose name has a space."""
    folder = tmp_path_factory.mktemp('a place')
    with tarfile.open(made / f'{dist.TAR}.tar.gz') as tar:
        tar.extractall(folder)
    return folder / dist.TAR


def members(made):
    """The members of the tarball, and of the .deb as dpkg-deb gives it."""
    with tarfile.open(made / f'{dist.TAR}.tar.gz') as tar:
        yield from tar.getmembers()
    with subprocess.Popen(['dpkg-deb', '--fsys-tarfile', str(made / dist.DEB)], stdout=subprocess.PIPE) as process, \
            tarfile.open(fileobj=process.stdout, mode='r|') as tar:
        yield from tar


def test_the_same_bytes_twice(made, tmp_path):
    """In another folder, in another time zone, another language and under another umask."""
    pack(tmp_path / 'second', 0o077, TZ='Pacific/Auckland', LC_ALL='C', LANG='de_DE.UTF-8', COLUMNS='20', HOME='/nowhere')
    names = sorted(os.listdir(made))
    assert sorted(os.listdir(tmp_path / 'second')) == names
    for name in names:
        assert (tmp_path / 'second' / name).read_bytes() == (made / name).read_bytes(), name


def test_sums_are_those_of_the_products(made):
    rows = [line.split('  ') for line in (made / 'SHA256SUMS').read_text().splitlines()]
    assert sorted(name for _, name in rows) == sorted({*os.listdir(made)} - {'SHA256SUMS'})
    for taken, name in rows:
        assert hashlib.sha256((made / name).read_bytes()).hexdigest() == taken
    wanted = {f'{dist.TAR}.tar.gz', dist.DEB, f'tcpsim-{__version__}-py3-none-any.whl', 'MANIFEST'}
    assert {name for _, name in rows} - {'tcpsim.html'} == wanted


def test_the_manifest_says_what_they_are_made_from(made):
    facts = dict(line.split(': ', 1) for line in (made / 'MANIFEST').read_text().splitlines())
    assert facts['tcpsim'] == VERSIONS
    assert facts['commit'].split(',')[0] == pass_gate.said('git', 'rev-parse', 'HEAD')
    toolchain = pass_gate.said('rt', 'version')
    assert facts['toolchain'] == (toolchain or 'none on this machine')
    assert facts['logic'] == (toolchain.rpartition(' logic ')[2] if toolchain else 'not known')
    program = hashlib.sha256(open(dist.PROGRAM, 'rb').read()).hexdigest()
    assert facts['program'] == f'sha256 {program}, {ran(dist.PROGRAM, "--version").stdout.strip()}'
    assert facts['crates'] == f'sha256 {pass_gate.sum_of_crates()}'
    assert re.match(r'[0-9]+ passed, [0-9]+ failed \(|not run ', facts['gate'])
    assert (facts['page'] != 'not made') == ('tcpsim.html' in os.listdir(made))


def test_modes_owners_and_times(made):
    seen = set()
    for member in members(made):
        seen.add(member.name)
        assert (member.uid, member.gid, member.mtime) == (0, 0, TIME), member.name
        if member.isfile():
            is_command = '/bin/' in member.name
            assert member.mode == (0o755 if is_command else 0o644), member.name
        elif member.isdir():
            assert member.mode == 0o755, member.name
        else:
            assert member.issym() and '/' not in member.linkname, member.name
        assert not re.search(r'__pycache__|\.pyc$|~$|/tests/', member.name)
    for name in ('LICENSE-MIT', 'LICENSE-APACHE', 'THIRD-PARTY', 'CHANGELOG.md', 'SECURITY.md', 'README.md', 'MANIFEST',
                 'docs/FORMATS.md', 'examples/one_segment.txt'):
        assert f'{dist.TAR}/share/doc/tcpsim/{name}' in seen and f'./usr/share/doc/tcpsim/{name}' in seen
    for name in ('copyright', 'changelog.gz'):
        assert f'./usr/share/doc/tcpsim/{name}' in seen
    assert {'./usr/share/man/man1/tcpsim.1.gz', './usr/share/zsh/vendor-completions/_tcpsim'} <= seen


def test_the_program_is_packed_as_it_was_built(unpacked, made):
    assert (unpacked / 'bin' / 'tcpsim').read_bytes() == open(dist.PROGRAM, 'rb').read()


def test_the_deb_says_what_it_wants(made):
    fields = dict(re.findall(r'^ ?([\w-]+): (.*)$', ran('dpkg-deb', '-f', made / dist.DEB).stdout, re.M))
    assert [fields[it] for it in ('Package', 'Version', 'Architecture')] == ['tcpsim', __version__, 'amd64']
    assert (fields['Depends'], fields['Recommends']) == ('libc6 (>= 2.36), python3 (>= 3.9)', 'python3-matplotlib')
    wanted = re.findall(r'@GLIBC_(\d+)\.(\d+)', ran('readelf', '--dyn-syms', '-W', dist.PROGRAM).stdout)
    assert wanted and max((int(a), int(b)) for a, b in wanted) <= (2, 34)       # README names it


def test_the_debs_sums_and_scripts(made, tmp_path):
    assert ran('dpkg-deb', '-R', made / dist.DEB, tmp_path / 'deb').returncode == 0
    assert ran('md5sum', '-c', '--quiet', 'DEBIAN/md5sums', cwd=tmp_path / 'deb').stdout == ''
    sums = (tmp_path / 'deb' / 'DEBIAN' / 'md5sums').read_text()
    plain = [it for it in (tmp_path / 'deb' / 'usr').rglob('*') if it.is_file() and not it.is_symlink()]
    assert sums.count('\n') == len(plain)
    for name in ('postinst', 'prerm'):
        assert ran('sh', '-n', tmp_path / 'deb' / 'DEBIAN' / name).returncode == 0
    for path in (tmp_path / 'deb' / 'usr' / 'bin').glob('tcpsim-*'):
        assert path.read_text().startswith('#!/usr/bin/python3\n')


def test_the_tarball_with_an_empty_environment(unpacked, tmp_path):
    """From another folder, with no PATH, no HOME and no locale."""
    def empty(name, *words):
        return ran(unpacked / 'bin' / name, *words, cwd=tmp_path, env={})
    with open(ONE_SEGMENT[:-3] + 'trace', encoding='ascii') as file:
        trace = file.read()
    for name in ('tcpsim', 'tcpsim-run'):
        done = empty(name, 'run', unpacked / 'share/doc/tcpsim/examples/one_segment.txt')
        assert (done.returncode, done.stdout, done.stderr) == (0, trace, '')
    made = empty('tcpsim-net', 'dumbbell', '--flows', '2', '--rate', '1M', '--end', '2s', '-o', 'mine.txt')
    assert (made.returncode, made.stderr) == (0, '')
    swept = empty('tcpsim-sweep', 'mine.txt', '--set', 'end=1s,2s', '--csv')
    assert (swept.returncode, swept.stdout.count('\n')) == (0, 3), swept.stderr
    page = empty('tcpsim-replay', 'mine.txt', '-o', 'mine.html')
    assert page.returncode == 0 and (tmp_path / 'mine.html').stat().st_size > 200_000, page.stderr
    assert [it for it in unpacked.rglob('*') if it.name == 'MANIFEST']


def test_the_wheel_with_no_network(made, tmp_path):
    """In a virtual environment of its own, with no clone: a run by the model, figures, a page."""
    environment = {'PATH': '/usr/bin:/bin', 'HOME': str(tmp_path)}
    wheel = next(made.glob('*.whl'))
    for words in ((sys.executable, '-m', 'venv', tmp_path / 'V'), (tmp_path / 'V/bin/pip', 'install', '-q', '--no-index', wheel)):
        done = ran(*words, env=environment, cwd=tmp_path)
        assert done.returncode == 0, done.stderr
    shutil.copy(ONE_SEGMENT, tmp_path / 'one.txt')

    def installed(name, *words):
        return ran(tmp_path / 'V/bin' / name, *words, env=environment, cwd=tmp_path)
    assert installed('tcpsim-run', '--version').stdout == f'tcpsim-run {VERSIONS}\n'
    done = installed('tcpsim-run', 'one.txt')
    with open(ONE_SEGMENT[:-3] + 'trace', encoding='ascii') as file:
        assert (done.returncode, done.stdout) == (0, file.read())
    assert installed('tcpsim-flows', 'one.txt').returncode == 0
    page = installed('tcpsim-replay', 'one.txt', '-o', 'one.html')
    assert page.returncode == 0 and 'version:"3.' in (tmp_path / 'one.html').read_text()
    drawn = installed('tcpsim-plot', 'one.txt', '-o', 'one.svg')       # by Debian's python3, where that has what the wheel lacks
    if ran('/usr/bin/python3', '-c', 'import matplotlib').returncode == 0:
        assert drawn.returncode == 0 and '<svg' in (tmp_path / 'one.svg').read_text()
    else:
        assert drawn.returncode == 1 and 'matplotlib is not there' in drawn.stderr


def test_the_wheel_has_its_licenses_and_d3(made):
    with zipfile.ZipFile(next(made.glob('*.whl'))) as wheel:
        names = wheel.namelist()
        metadata = wheel.read(f'tcpsim-{__version__}.dist-info/METADATA').decode()
    for name in dist.WITH_THE_WHEEL:
        assert f'tcpsim-{__version__}.dist-info/{name}' in names
    assert 'tcpsim/replay/web/vendor/d3.v3.min.js' in names and 'tcpsim/replay/web/vendor/LICENSE' in names
    assert 'License: MIT OR Apache-2.0' in metadata
    assert not [it for it in names if 'tests' in it or it.endswith('.pyc')]


@pytest.mark.parametrize('lacking, sentence', [
    ('program', 'dist: crates/tcpsim/out/tcpsim is not there: build it with `make run`\n'),
    ('commit', 'dist: there is no commit whose time everything would have: set SOURCE_DATE_EPOCH, in seconds\n')])
def test_what_lacks_is_told_in_a_sentence(lacking, sentence, tmp_path):
    """In a copy of the sources, which is no clone."""
    for name in ('dev', 'python'):
        shutil.copytree(os.path.join(TOP, name), tmp_path / name, ignore=shutil.ignore_patterns('__pycache__', 'tests'))
    if lacking != 'program':
        (tmp_path / 'crates/tcpsim/out').mkdir(parents=True)
        shutil.copy(dist.PROGRAM, tmp_path / 'crates/tcpsim/out/tcpsim')
    kept = {name: value for name, value in os.environ.items() if name not in ('SOURCE_DATE_EPOCH', 'GIT_DIR')}
    done = ran(sys.executable, tmp_path / 'dev/dist.py', env={**kept, 'GIT_CEILING_DIRECTORIES': str(tmp_path.parent)})
    assert (done.returncode, done.stdout, done.stderr) == (1, '', sentence)
    assert not (tmp_path / 'out').exists()
