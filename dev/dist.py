#!/usr/bin/env python3
"""Writes what is installed where no toolchain is (`make dist`), from a built tree, into out/dist:

    tcpsim-V-linux-x86_64.tar.gz, tcpsim_V_amd64.deb, tcpsim-V-py3-none-any.whl, tcpsim.html, MANIFEST, SHA256SUMS

    dev/dist.py [-o DIR]

The same tree gives the same bytes: times are the commit's, or those of SOURCE_DATE_EPOCH, modes and owners are set, names
sorted. tcpsim.html is out/page/tcpsim.html, where `make page` has written it. The wheel wants a python3 with setuptools and
wheel, the .deb dpkg-deb.
"""
import argparse
import gzip
import hashlib
import io
import os
import re
import shutil
import stat
import subprocess
import sys
import tarfile
import tempfile
import time

TOP = os.path.dirname(os.path.dirname(os.path.abspath(__file__)))
sys.path[1:1] = [os.path.join(TOP, 'dev'), os.path.join(TOP, 'python')]

import build  # noqa: E402
import pass_gate  # noqa: E402
from tcpsim import VERSIONS, __version__  # noqa: E402

NAME = 'tcpsim'
PROGRAM = os.path.join(TOP, 'crates', NAME, 'out', NAME)
PAGE = os.path.join(TOP, 'out', 'page', 'tcpsim.html')
TAR = f'{NAME}-{__version__}-linux-x86_64'
DEB = f'{NAME}_{__version__}_amd64.deb'
MAINTAINER = 'the tcpsim authors <maintainers@users.noreply.bilquteng.example>'
PRODUCT = re.compile(r'tcpsim-.*\.tar\.gz|tcpsim_.*\.deb|tcpsim-.*\.whl|tcpsim\.html|MANIFEST|SHA256SUMS')
WITH_THE_WHEEL = 'LICENSE-MIT', 'LICENSE-APACHE', 'THIRD-PARTY'
BUILD_WHEEL = 'import sys; from setuptools import build_meta; print(build_meta.build_wheel(sys.argv[1]))'
# d3 is in the tools' package, as Debian's libjs-d3 has it, so that is not asked for.
CONTROL = '''\
Package: {name}
Version: {version}
Architecture: amd64
Maintainer: {maintainer}
Installed-Size: {size}
Depends: libc6 (>= 2.36), python3 (>= 3.9)
Recommends: python3-matplotlib
Section: science
Priority: optional
Description: packet-level simulator of TCP bottlenecks, proved correct
 tcpsim simulates Reno and NewReno senders over networks of routers with
 drop-tail and CoDel queues. Every event is a line of a trace, which is the
 same on every machine. The program was proved to meet its contracts before
 it was built.
 .
 With it come tools that draw runs, count their figures, animate them in a
 browser, sweep over queues and delays, and say why a flow stood still.
'''
# As dh_python3 writes them for modules outside of Python's own folders.
POSTINST = '''\
#!/bin/sh
set -e
if command -v py3compile >/dev/null 2>&1; then
	py3compile -p tcpsim /usr/lib/tcpsim
fi
'''
PRERM = '''\
#!/bin/sh
set -e
if command -v py3clean >/dev/null 2>&1; then
	py3clean -p tcpsim
fi
find /usr/lib/tcpsim -depth -type d -name __pycache__ -exec rm -r {} +
'''
# The program is packed as it was built, so that its sum is that of the manifest.
OVERRIDES = 'tcpsim: unstripped-binary-or-object [usr/bin/tcpsim]\n'
COPYRIGHT = '''\
Format: https://www.debian.org/doc/packaging-manuals/copyright-format/1.0/
Upstream-Name: tcpsim
Comment: THIRD-PARTY, beside this file, has what others wrote, with its
 licenses, and says that the toolchain's own terms decide on passing on
 usr/bin/tcpsim, which it compiled.

Files: *
Copyright: 2026 the tcpsim authors
License: Expat or Apache-2.0

Files: usr/lib/tcpsim/tcpsim/replay/web/vendor/*
Copyright: 2013 Michael Bostock
License: BSD-3-clause
{d3}
License: Expat
{mit}
License: Apache-2.0
 /usr/share/common-licenses/Apache-2.0 has it.
'''


class Refused(Exception):
    """Why nothing is packed: one sentence."""


def epoch():
    """The time that everything has, in seconds: SOURCE_DATE_EPOCH, else the commit's."""
    given = os.environ.get('SOURCE_DATE_EPOCH') or pass_gate.said('git', 'log', '-1', '--format=%ct')
    if not given or not re.fullmatch('[0-9]{1,10}', given):
        raise Refused('there is no commit whose time everything would have: set SOURCE_DATE_EPOCH, in seconds')
    return int(given)


def ran(words, **more):
    """What a command writes; Refused where it fails."""
    try:
        done = subprocess.run(words, capture_output=True, text=True, stdin=subprocess.DEVNULL, check=False, **more)
    except FileNotFoundError:
        raise Refused(f'there is no command {words[0]}') from None
    if done.returncode:
        raise Refused(f'{" ".join(words[:2])} failed: {" ".join((done.stderr or done.stdout).split())}')
    return done.stdout


def python_of_wheels():
    """A python3 that has setuptools and wheel."""
    for python in (sys.executable, '/usr/bin/python3'):
        if os.path.exists(python) and pass_gate.said(python, '-c', 'import setuptools, wheel') is not None:
            return python
    raise Refused('no python3 has setuptools and wheel: apt-get install python3-setuptools python3-wheel')


def sum_of(path):
    """The SHA-256 of a file."""
    with open(path, 'rb') as file:
        return hashlib.sha256(file.read()).hexdigest()


def write(path, text, mode=0o644):
    """Writes a file, with the folders above it."""
    os.makedirs(os.path.dirname(path), exist_ok=True)
    with open(path, 'wb') as file:
        file.write(text.encode() if isinstance(text, str) else text)
    os.chmod(path, mode)


def squeeze(data):
    """Bytes as gzip packs them, with no name and no time."""
    packed = io.BytesIO()
    with gzip.GzipFile(filename='', mode='wb', compresslevel=9, fileobj=packed, mtime=0) as file:
        file.write(data)
    return packed.getvalue()


def settle(folder, when):
    """Gives all below a folder one time, and modes that no umask changes."""
    for at, _, names in os.walk(folder, topdown=False):
        for name in names:
            path = os.path.join(at, name)
            if not os.path.islink(path):
                os.chmod(path, 0o755 if os.stat(path).st_mode & stat.S_IXUSR else 0o644)
            os.utime(path, (when, when), follow_symlinks=False)
        os.chmod(at, 0o755)
        os.utime(at, (when, when))


# ---- the manifest

def manifest(when):
    """What the products were made from, line by line."""
    commit = pass_gate.said('git', 'rev-parse', 'HEAD') or 'none'
    changed = bool(pass_gate.said('git', 'status', '--porcelain'))
    toolchain = pass_gate.said('rt', 'version') or 'none on this machine'
    logic = re.search(r' logic (\S+)$', toolchain)
    crates, gate = pass_gate.sum_of_crates(), pass_gate.kept()
    if gate.get('crates') != crates:
        passed = 'not run on these crates here'
    else:
        passed = f'{gate["last line"]} (make test, at commit {gate["commit"]}, with {gate["toolchain"]})'
    return ''.join(f'{name}: {value}\n' for name, value in (
        ('tcpsim', VERSIONS),
        ('commit', f'{commit}{", and changes that are not committed" * changed}'),
        ('time', time.strftime('%Y-%m-%dT%H:%M:%SZ', time.gmtime(when))),
        ('toolchain', toolchain),
        ('logic', logic[1] if logic else 'not known'),
        ('program', f'sha256 {sum_of(PROGRAM)}, {ran([PROGRAM, "--version"]).strip()}'),
        ('proved', 'make run proved these crates and built it' if build.is_built() else 'not by make run of these crates'),
        ('crates', f'sha256 {crates}'),
        ('gate', passed),
        ('page', f'sha256 {sum_of(PAGE)}' if os.path.exists(PAGE) else 'not made')))


# ---- products

def install(folder, *words):
    """What `make install` puts below a folder, with the words for make."""
    ran(['make', '-s', '--no-print-directory', 'install', f'DESTDIR={folder}', *words], cwd=TOP)


def make_tar(room, out, notes, when):
    """The tarball: one folder with bin/, lib/ and share/."""
    top = os.path.join(room, TAR)
    install(top, 'PREFIX=')
    write(os.path.join(top, 'share', 'doc', NAME, 'MANIFEST'), notes)
    settle(top, when)

    def plain(member):
        member.uid = member.gid = 0
        member.uname = member.gname = 'root'
        return member
    packed = os.path.join(room, 'plain.tar')
    with tarfile.open(packed, 'w', format=tarfile.USTAR_FORMAT) as tar:
        tar.add(top, TAR, filter=plain)         # by name, sorted
    with open(packed, 'rb') as file:
        write(os.path.join(out, f'{TAR}.tar.gz'), squeeze(file.read()))


def change(path, new):
    """Gives a file another text."""
    with open(path, 'rb') as file:
        data = file.read()
    write(path, new(data), stat.S_IMODE(os.stat(path).st_mode))


def indented(path, after=''):
    """A license as a field of Debian's copyright file."""
    with open(os.path.join(TOP, path), encoding='utf-8') as file:
        lines = file.read().partition(after)[2].strip('\n').split('\n') if after else file.read().strip('\n').split('\n')
    return ''.join(f' {line or "."}\n' for line in lines)


def to_debian(top, notes, when):
    """Changes what is installed to what Debian has in a package, and adds its files; answers its installed size."""
    documents = os.path.join(top, 'usr', 'share', 'doc', NAME)
    write(os.path.join(documents, 'MANIFEST'), notes)
    write(os.path.join(documents, 'copyright'), COPYRIGHT.format(
        d3=indented('python/tcpsim/replay/web/vendor/LICENSE', 'All rights reserved.\n'), mit=indented('LICENSE-MIT', 'authors\n')))
    day = time.strftime('%a, %d %b %Y %H:%M:%S +0000', time.gmtime(when))
    write(os.path.join(documents, 'changelog.gz'), squeeze(
        f'{NAME} ({__version__}) bookworm; urgency=medium\n\n  * CHANGELOG.md has what is new.\n\n -- {MAINTAINER}  {day}\n'.encode()))
    write(os.path.join(top, 'usr', 'share', 'lintian', 'overrides', NAME), OVERRIDES)
    pages = os.path.join(top, 'usr', 'share', 'man', 'man1')
    for name in sorted(os.listdir(pages)):
        path = os.path.join(pages, name)
        change(path, squeeze)
        os.rename(path, f'{path}.gz')
    for name in sorted(os.listdir(os.path.join(top, 'usr', 'bin'))):
        if name != NAME:
            change(os.path.join(top, 'usr', 'bin', name), lambda data: data.replace(b'#!/usr/bin/env python3\n', b'#!/usr/bin/python3\n', 1))
    files = [os.path.join(at, name) for at, _, names in os.walk(top) for name in names]
    plain = sorted(it for it in files if not os.path.islink(it))
    size = sum(-(-os.path.getsize(it) // 1024) for it in plain) + sum(1 for _ in os.walk(top))
    control = os.path.join(top, 'DEBIAN')
    sums = []
    for path in plain:
        with open(path, 'rb') as file:
            sums.append(f'{hashlib.md5(file.read()).hexdigest()}  {os.path.relpath(path, top)}\n')
    write(os.path.join(control, 'md5sums'), ''.join(sums))
    write(os.path.join(control, 'control'), CONTROL.format(name=NAME, version=__version__, maintainer=MAINTAINER, size=size))
    write(os.path.join(control, 'postinst'), POSTINST, 0o755)
    write(os.path.join(control, 'prerm'), PRERM, 0o755)


def make_deb(room, out, notes, when):
    """The package for Debian 12."""
    top = os.path.join(room, 'deb')
    install(top, 'PREFIX=/usr', 'ZSH_COMPLETION=share/zsh/vendor-completions/_tcpsim')
    to_debian(top, notes, when)
    settle(top, when)
    ran(['dpkg-deb', '--root-owner-group', '-Zxz', '-z6', '--threads-max=1', '--build', top, os.path.join(out, DEB)],
        env={**os.environ, 'SOURCE_DATE_EPOCH': str(when)})


def make_wheel(room, out, when):
    """The wheel: the tools and the model, with what pages need."""
    top = os.path.join(room, 'python')
    shutil.copytree(os.path.join(TOP, 'python'), top,
                    ignore=shutil.ignore_patterns('__pycache__', 'build', '*.egg-info', 'tests'))
    for name in WITH_THE_WHEEL:
        shutil.copyfile(os.path.join(TOP, name), os.path.join(top, name))
    settle(top, when)
    made = os.path.join(room, 'wheel')
    os.mkdir(made)
    environment = {'PATH': os.environ.get('PATH', os.defpath), 'LC_ALL': 'C.UTF-8', 'TZ': 'UTC', 'PYTHONHASHSEED': '0',
                   'SOURCE_DATE_EPOCH': str(when)}
    ran([python_of_wheels(), '-c', BUILD_WHEEL, made], cwd=top, env=environment)
    for name in os.listdir(made):
        shutil.copyfile(os.path.join(made, name), os.path.join(out, name))


def pack(out):
    """Writes all products into a folder, in the place of what was there."""
    if not os.access(PROGRAM, os.X_OK):
        raise Refused(f'{os.path.relpath(PROGRAM, TOP)} is not there: build it with `make run`')
    when = epoch()
    notes = manifest(when)
    with tempfile.TemporaryDirectory(prefix='dist-') as room:
        made = os.path.join(room, 'out')
        os.mkdir(made)
        make_tar(room, made, notes, when)
        make_deb(room, made, notes, when)
        make_wheel(room, made, when)
        if os.path.exists(PAGE):
            shutil.copyfile(PAGE, os.path.join(made, os.path.basename(PAGE)))
        write(os.path.join(made, 'MANIFEST'), notes)
        names = sorted(os.listdir(made))
        write(os.path.join(made, 'SHA256SUMS'), ''.join(f'{sum_of(os.path.join(made, name))}  {name}\n' for name in names))
        settle(made, when)
        os.makedirs(out, exist_ok=True)
        for name in os.listdir(out):
            if PRODUCT.fullmatch(name):         # of whatever version
                os.remove(os.path.join(out, name))
        shutil.copytree(made, out, dirs_exist_ok=True)
    print(f'{os.path.relpath(out)}: {" ".join(names)} SHA256SUMS')
    if not os.path.exists(PAGE):
        print(f'without the page: {os.path.relpath(PAGE, TOP)} is not there (make page)')
    print(notes, end='')


def main():
    reader = argparse.ArgumentParser(description='Packs the built program, the tools and the documents.')
    reader.add_argument('-o', '--output', metavar='DIR', default=os.path.join(TOP, 'out', 'dist'), help='left out: out/dist')
    words = reader.parse_args()
    os.umask(0o022)
    try:
        pack(os.path.abspath(words.output))
    except (Refused, OSError) as why:
        print(f'dist: {why}', file=sys.stderr)
        return 1
    return 0


if __name__ == '__main__':
    sys.exit(main())
