#!/usr/bin/env python3
"""Checks one crate over what `make run` keeps of those that it stands on.

    dev/check.py CRATE [WORD ..]

`rt check` in a crate's folder first proves every crate below; this reads only their statements, as dev/build.py
does, so they have to be kept: after a change below, run `make run` first. Functions that have not changed since
the last time are not proved again. Words are those of `rattle check`, as `--only PATH` for one function,
`--allow-holes` to go past open goals, `--test` for the crate with its tests, or `--jobs N` (else 1). `rt ci`
trusts nothing of it.
"""
import os
import subprocess
import sys
import time

import build


def words_for(name, more, libraries, kit):
    """The command that checks a crate, with these words behind it."""
    made = build.check_words(name, kit, 1, libraries)
    if '--jobs' in more:
        at = made.index('--jobs')
        del made[at:at + 2]
    folder = f"{build.TOP}/crates/{name}/out/checked{'-tests' if '--test' in more else ''}"
    os.makedirs(folder, exist_ok=True)
    return [*made, '--incremental', folder, *more]


def check(name, more):
    """Checks the crate; answers the status to end with."""
    kit, libraries = build.toolchain(), build.declared()
    if name not in libraries:
        raise build.Refused(f'crates.txt has no crate {name}')
    missing = [it for it in build.below(name, libraries) if not os.path.isdir(f'{build.KEPT}/{it}.rlib')]
    if missing:
        raise build.Refused(f"nothing is kept of {', '.join(missing)}: `make run` proves and keeps what is below")
    begun = time.time()
    status = subprocess.run(words_for(name, more, libraries, kit), cwd=build.TOP, stdin=subprocess.DEVNULL).returncode
    print(f"{name}: {'proved' if status == 0 else 'not proved'}, {time.time() - begun:.0f} s")
    return status


def main():
    if len(sys.argv) < 2 or sys.argv[1].startswith('-'):
        print(__doc__, end='')
        return 0 if sys.argv[1:] in (['-h'], ['--help']) else 2
    try:
        return check(sys.argv[1], sys.argv[2:])
    except build.Refused as why:
        print(f'nothing is checked: {why}', file=sys.stderr)
        return 1


if __name__ == '__main__':
    sys.exit(main())
