"""The program for a browser: WebAssembly with 64-bit memory, of the module that the build keeps of the proved program.

The toolchain's clang writes the module as text, which is rewritten for the other target, compiled, and linked with
page/libc.c, the thirty-odd functions that the program asks of a C library.
"""
import fcntl
import hashlib
import os
import re
import shlex
import subprocess
import tempfile

import build
from clone import TOP
from tcpsim.command_line import Refused

LIBC = os.path.join(TOP, 'page', 'libc.c')
OUT = os.path.join(TOP, 'out', 'page')
TARGET = 'wasm64-unknown-unknown'
# LLVM's own layout for it: pointers, i64 and i128 lie as on x86-64.
LAYOUT = 'e-m:e-p:64:64-p10:8:8-p20:8:8-i64:64-i128:128-n32:64-S128-ni:1:10:20'
FEATURES = '-mbulk-memory', '-mnontrapping-fptoint', '-msign-ext'
STACK, FIRST_MEMORY = 1 << 20, 1 << 21      # bytes; the second is FIRST_PAGES of page/web/host.js
OF_X86 = re.compile(r' "(?:probe-stack|stack-probe-size|target-cpu|target-features|tune-cpu)"="[^"]*"')
PAUSE = re.compile(r'^ *(?:tail )?call void @llvm\.x86\.sse2\.pause\(\).*$')


def for_wasm(lines):
    """The lines of the module's text for the other target. Raises Refused where it has an instruction of x86-64 that is not
    known here."""
    for line in lines:
        if line.startswith('target triple = '):
            line = f'target triple = "{TARGET}"\n'
        elif line.startswith('target datalayout = '):
            line = f'target datalayout = "{LAYOUT}"\n'
        elif line.startswith('attributes #'):
            line = OF_X86.sub('', line)
            line = line.replace('{ }', '{ nounwind }')
        elif 'llvm.x86.' in line:
            if line.startswith('declare void @llvm.x86.sse2.pause('):
                continue
            line, changed = PAUSE.subn('  fence seq_cst', line)
            if not changed:
                raise Refused(f'the module has what only x86-64 has: {line.strip()[:80]}')
        yield line


def run(words, folder, what):
    """Runs a command of the toolchain; raises Refused with its first words where it fails."""
    done = subprocess.run(words, cwd=folder, stdin=subprocess.DEVNULL, capture_output=True, text=True, check=False)
    if done.returncode:
        raise Refused(f'{what} failed: {" ".join(done.stderr.split())[:300] or shlex.join(words)}')


def compiled(module, kit, say=print):
    """The program's bytes for WebAssembly, of the module in this file. What was made of the same module is used again; where
    several ask at once, as tests beside each other do, the first makes it and the others wait."""
    clang = f'{kit}/toolchain/bin/clang'
    taken = hashlib.sha256(f'{TARGET} {LAYOUT} {FEATURES} {STACK} {FIRST_MEMORY}'.encode())
    for path in (module, LIBC, os.path.join(kit, 'KIT-ID'), os.path.abspath(__file__)):
        with open(path, 'rb') as file:
            taken.update(hashlib.sha256(file.read()).digest())
    made = os.path.join(OUT, f'{taken.hexdigest()[:16]}.wasm')
    os.makedirs(OUT, exist_ok=True)
    with open(os.path.join(OUT, 'lock'), 'wb') as lock:
        fcntl.flock(lock, fcntl.LOCK_EX)
        if not os.path.isfile(made):
            say('compiling the program for WebAssembly, which takes a minute or two', flush=True)
            with tempfile.TemporaryDirectory(prefix='compiling-', dir=OUT) as folder:
                compile_in(folder, module, clang)
                os.replace(link_in(folder, clang), made)
    with open(made, 'rb') as file:
        return file.read()


def compile_in(folder, module, clang):
    """Writes program.o and libc.o into the folder."""
    common = ['--no-default-config', '-c', '-O2', f'--target={TARGET}', *FEATURES]
    run([clang, '--target=x86_64-unknown-linux-gnu', '--no-default-config', '-x', 'ir', '-S', '-emit-llvm', '-Xclang',
         '-disable-llvm-passes', module, '-o', 'program.ll'], folder, 'writing the module as text')
    with open(f'{folder}/program.ll', encoding='utf-8') as file, open(f'{folder}/wasm.ll', 'w', encoding='utf-8') as out:
        out.writelines(for_wasm(file))
    os.remove(f'{folder}/program.ll')
    run([clang, *common, '-x', 'ir', 'wasm.ll', '-o', 'program.o'], folder, 'compiling the module')
    run([clang, *common, '-ffreestanding', '-nostdlib', '-fno-builtin', LIBC, '-o', 'libc.o'], folder, 'compiling page/libc.c')


def link_in(folder, clang):
    """Links both; answers the file. The linker is the same binary under another name."""
    os.symlink(clang, f'{folder}/wasm-ld')
    run(['./wasm-ld', '-m', 'wasm64', '--no-entry', '--gc-sections', '--strip-debug', '--fatal-warnings', '--stack-first', '-z',
         f'stack-size={STACK}', '--import-memory', f'--initial-memory={FIRST_MEMORY}', 'program.o', 'libc.o', '-o', 'program.wasm'],
        folder, 'linking')
    return f'{folder}/program.wasm'


def program():
    """The program's bytes for WebAssembly, and the record of its proof. Raises Refused where there is no module that is of
    the proof of the native program."""
    try:
        record = build.module_record()
        return compiled(build.MODULE, build.toolchain()), record
    except build.Refused as why:
        raise Refused(f'no page is made: {why}: dev/build.py --module proves and keeps what is wanted') from why
