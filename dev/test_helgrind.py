"""Tries the built program's threads under Helgrind, which must report no data race.

Helgrind takes an instruction with a lock prefix for a read, and for no order between threads. So `objdump` lists
these instructions and the exchanges with memory, and dev/atomics.c reports each to Helgrind, as a happens-before
edge at its operand. Its control leaves the sites of one function out: then races are reported.
"""
import collections
import os
import re
import subprocess

import pytest

import clone
from clone import PROGRAM, wide

pytestmark = [pytest.mark.built, pytest.mark.wants(valgrind='valgrind', objdump='binutils', cc='gcc')]

HEADING = re.compile(r'[0-9a-f]+ <(.+)>:')
LISTED = re.compile(r' *([0-9a-f]+):\t((?:[0-9a-f]{2} )+) *\t?(.*)')
ATOMIC = re.compile(r'lock |xchg .*\(')
OPERAND = re.compile(r'(-?0x[0-9a-f]+)?\((%\w+)?(?:,(%\w+)(?:,[1248])?)?\)')
REPORTS = re.compile(r'ERROR SUMMARY: (\d+) errors')
# What a stub pushes: the bytes below the stack's end that a function may use, the flags and two registers.
PUSHED = 128 + 3 * 8
# `ask` hands Helgrind a request with the operand's address, which is kept where each thread has a place of its own: an
# exchange may change the register that named it. The rotations and the last exchange are valgrind's mark.
MACROS = '''
.section .tbss, "awT", @nobits
operand: .zero 8
.text
.macro begin
  lea -128(%rsp), %rsp
  pushfq
  push %rax
  push %rdx
.endm
.macro end
  pop %rdx
  pop %rax
  popfq
  lea 128(%rsp), %rsp
.endm
.macro ask request
  mov operand@gottpoff(%rip), %rdx
  push $0
  push $0
  push $0
  push $0
  push %fs:(%rdx)
  push \\request(%rip)
  mov %rsp, %rax
  xor %edx, %edx
  rolq $3, %rdi
  rolq $13, %rdi
  rolq $61, %rdi
  rolq $51, %rdi
  xchgq %rbx, %rbx
  add $48, %rsp
.endm
'''

Site = collections.namedtuple('Site', 'at bytes text function')


# ---- the program's atomic instructions


def sites(program):
    """Its atomic instructions, as `objdump` lists them."""
    listed = subprocess.run(['objdump', '-d', '-w', program], check=True, capture_output=True, text=True).stdout
    found, function = [], ''
    for line in listed.splitlines():
        heading, it = HEADING.fullmatch(line), LISTED.fullmatch(line)
        if heading:
            function = heading[1]
        elif it and ATOMIC.match(it[3]):
            if '%rip' in it[3]:
                raise ValueError(f'a stub elsewhere would name another address: {line}')
            found.append(Site(int(it[1], 16), it[2].split(), it[3], function))
    return found


def plain(function):
    """A function's name without the marks by which its copies for several types differ."""
    return re.sub(r'::<#[0-9a-f]+>', '', function)


def operand_of(text):
    """The operand in memory as a stub names it, whose stack ends lower."""
    displacement, base, index = OPERAND.search(text).groups()
    whole = OPERAND.search(text)[0]
    if base != '%rsp':
        return whole
    return f'{int(displacement or "0", 16) + PUSHED}{whole[len(displacement or ""):]}'


def stubs(chosen):
    """The stubs of these sites and their list, as assembly."""
    code = [MACROS]
    for number, site in enumerate(chosen):
        code.append(f'''stub_{number}:
  begin
  lea {operand_of(site.text)}, %rax
  mov operand@gottpoff(%rip), %rdx
  mov %rax, %fs:(%rdx)
  ask happens_before
  end
  .byte {", ".join(f"0x{it}" for it in site.bytes)}
  begin
  ask happens_after
  end
  jmp *behind_{number}(%rip)
''')
    code.append('.data\n.globl sites, site_count\n.hidden sites, site_count\n')
    code += [f'behind_{number}: .quad 0\n' for number in range(len(chosen))]
    code.append('sites:\n')
    code += [f'  .quad {site.at}, {len(site.bytes)}, stub_{number}, behind_{number}\n' for number, site in enumerate(chosen)]
    code.append(f'site_count: .quad {len(chosen)}\n.section .note.GNU-stack, "", @progbits\n')
    return ''.join(code)


def build(chosen, folder):
    """The library that tells Helgrind of these sites."""
    source = os.path.join(folder, 'stubs.s')
    with open(source, 'w', encoding='utf-8') as file:
        file.write(stubs(chosen))
    return clone.library(folder, 'atomics', '-fvisibility=hidden', source)


# ---- the runs

@pytest.fixture(scope='module')
def reports(tmp_path_factory):
    """A function that answers how many races Helgrind reports in a run by workers, where it is told of some sites."""
    folder = str(tmp_path_factory.mktemp('helgrind'))
    scenario, log = os.path.join(folder, 'wide.txt'), os.path.join(folder, 'log')
    with open(scenario, 'wb') as file:
        file.write(wide('1200ms'))
    plain_trace = subprocess.run([PROGRAM, 'run', scenario], capture_output=True, check=True).stdout

    def count(chosen, workers):
        words = ['valgrind', '--tool=helgrind', '--fair-sched=yes', '--history-level=none', '--error-limit=no',
                 f'--log-file={log}', PROGRAM, 'run', '--groups', 'auto', '--workers', str(workers), scenario]
        env = {**os.environ, 'LD_PRELOAD': build(chosen, folder)}
        assert subprocess.run(words, env=env, stdout=subprocess.PIPE, check=True).stdout == plain_trace
        with open(log, encoding='utf-8', errors='replace') as file:
            return int(REPORTS.search(file.read())[1])
    return count


@pytest.mark.parametrize('workers', [2, 3, 4, 8])
def test_no_race_is_reported(reports, workers):
    assert reports(sites(PROGRAM), workers) == 0


def test_races_are_reported_where_one_function_is_left_out(reports):
    """Those with the most sites first. Of many functions the sites can lack: others order what the threads share."""
    all_sites = sites(PROGRAM)
    functions = collections.Counter(plain(it.function) for it in all_sites)
    found = {}
    for name, _ in functions.most_common():
        found[name] = reports([it for it in all_sites if plain(it.function) != name], 4)
        if found[name] >= 1000:
            return
    pytest.fail(f'reports without the sites of one function: {found}')
