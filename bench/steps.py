#!/usr/bin/env python3
"""Counts what an event costs by itself, with nothing of its text, and writes that section of bench/RESULTS.md:
bench/steps.py [--jobs N]

A program is built for it over what `make run` keeps: it assembles a scenario and calls `Net::step_into` until the run
has ended. Taken off is a run of the same scenario that ends where its last flow starts. It wants valgrind; what it
counts does not depend on the machine's speed.
"""
import argparse
import os
import subprocess
import sys
import tempfile
from concurrent.futures import ThreadPoolExecutor

from results import CALLGRIND, ENVIRONMENT, TOP, instructions, put_section, table, within
from scenarios import paths_of

sys.path.insert(0, os.path.join(TOP, 'dev'))
import build  # noqa: E402

HEAD = '## An event by itself\n'
# The most instructions that an event is to cost.
MOST = 450
NAMES = ('one_flow', 'one_flow_delayed_acks', 'under_way_10000', 'under_way_10000_delayed_acks', 'dumbbell_codel', 'tree',
         'chain', 'few_islands', 'four_islands')
SOURCE = '''//! Runs the events of a scenario, and makes no text of them. Tells how many there were.
#![tactic(auto)]

use net_machine::Net;
use node_core::Line;
use scenario_asm::assemble;
use std::env;
use std::fs;
use std::process::ExitCode;

fn main(rt: HostRuntime) -> ExitCode {
    let Ok(mut words) = env::args(&rt) else {
        return ExitCode::from(2);
    };
    let _program = words.next();
    let Some(path) = words.next() else {
        return ExitCode::from(2);
    };
    let Ok(bytes) = fs::read(&rt, path.as_str()) else {
        return ExitCode::from(3);
    };
    let Ok(scenario) = assemble(rt.alloc(), bytes.as_slice()) else {
        return ExitCode::from(4);
    };
    let Ok(mut net) = Net::new(rt.alloc(), &scenario) else {
        return ExitCode::from(5);
    };
    let mut line = Line::new(rt.alloc());
    for _ in 0..u64::MAX {
        match net.step_into(&mut line) {
            Ok(true) => {}
            _ => break,
        }
    }
    let told = println!(rt; "{}", net.position());
    drop(net);
    ExitCode::from(u8::from(told.is_err()))
}
'''


def built(folder):
    """The program, built over what is kept of the libraries."""
    kit, libraries = build.toolchain(), build.declared()
    needed = [it for name in ('scenario_asm', 'net_machine') for it in (name, *libraries[name])]
    root = os.path.join(folder, 'main.rt')
    with open(root, 'w', encoding='utf-8') as file:
        file.write(SOURCE)
    words = build.words_of(build.PROGRAM, kit, 1, {**libraries, build.PROGRAM: list(dict.fromkeys(needed))})
    changed = {build.PROGRAM: 'steps', f'{build.PROGRAM}=': 'steps=', f'{TOP}/crates/{build.PROGRAM}/src/main.rt': root,
               f'{build.KEPT}/{build.PROGRAM}.o': os.path.join(folder, 'steps.o')}
    made = subprocess.run([changed.get(it, it) for it in words], capture_output=True, text=True)
    if made.returncode:
        sys.exit(made.stdout + made.stderr)
    program = os.path.join(folder, 'steps')
    subprocess.run([f'{kit}/bin/rattle-link', '--target', 'x86_64-unknown-linux-gnu', '--toolchain', f'{kit}/toolchain', '-o', program,
                    os.path.join(folder, 'steps.o'), f'{kit}/c/libos_c.a', f'{kit}/c/liblibc_c.a'], check=True, capture_output=True)
    return program


def counted(program, path):
    """How many events a scenario has, and the instructions of its run."""
    done = subprocess.run([*CALLGRIND, program, path], capture_output=True, text=True, env=ENVIRONMENT, check=True)
    return int(done.stdout), instructions(done.stderr)


def an_event(program, name):
    (few, start), (many, whole) = (counted(program, path) for path in paths_of(name))
    return (whole - start) / (many - few)


def section(jobs):
    yield HEAD
    yield (f'Instructions of an event by `Net::step_into` alone, with the loop that calls it. The bound is {MOST}. A run without its '
           'text, above, costs more, since its loop works for the text.\n')
    with tempfile.TemporaryDirectory() as folder, ThreadPoolExecutor(jobs) as pool:
        program = built(folder)
        rows = list(pool.map(lambda name: (name, an_event(program, name)), NAMES))
    yield from table(('Scenario', 'Instructions per event', 'Within'),
                     [(f'`{name}`', f'{cost:.1f}', within(cost, MOST)) for name, cost in rows])


def main(words=None):
    parser = argparse.ArgumentParser(description=__doc__, formatter_class=argparse.RawDescriptionHelpFormatter)
    parser.add_argument('--jobs', type=int, default=os.cpu_count(), help='counts that run side by side')
    put_section(HEAD, section(parser.parse_args(words).jobs))


if __name__ == '__main__':
    main()
