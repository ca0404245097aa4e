#!/usr/bin/env python3
"""Measures tcpsim beside ns-2, ns-3, Linux's CoDel and laws of papers, and writes the tables of docs/VALIDATION.md.

    dev/validate.py [--program PATH] [ROW ..]     measures rows, all where none is named, keeps their numbers, writes the page
    dev/validate.py --page                        writes the page from the numbers that are kept
    dev/validate.py --pictures                    draws its pictures (matplotlib)

Rows are rules, codel, laws, phases, newreno, aggregates and expectations. Rules, phases, newreno and aggregates want ns-2 (apt-get install ns2),
codel wants linux-headers and a C compiler, or libns3-dev and a C++ compiler; laws and expectations want tcpsim alone. A row whose
peer is not there keeps its numbers, which the page names with version and date. All rows take some three minutes on four slow cores.
"""
import argparse
import os
import sys
from collections.abc import Callable

TOP = os.path.dirname(os.path.dirname(os.path.abspath(__file__)))
sys.path.insert(0, os.path.join(TOP, 'python'))

from validation import aggregates, codel, expectations, laws, newreno, page, phases, rules, stored     # noqa: E402

PROGRAM = os.path.join(TOP, 'crates', 'tcpsim', 'out', 'tcpsim')


def versions(**peers):
    """The peers that are there, with their versions."""
    return {name.replace('_', '-'): version() for name, version in peers.items() if version() is not None}


# Of each row: the peers that are there, and what measures it.
ROWS: dict[str, tuple[Callable, Callable]] = {
    'rules': (lambda: versions(ns_2=rules.version), lambda _: rules.measure()),
    'codel': (lambda: versions(Linux=codel.linux_version, ns_3=codel.ns3_version), codel.measure_all),
    'laws': (dict, laws.measure),
    'phases': (lambda: versions(ns_2=rules.version), phases.measure),
    'newreno': (lambda: versions(ns_2=rules.version), newreno.measure),
    'aggregates': (lambda: versions(ns_2=rules.version), aggregates.measure),
    'expectations': (dict, expectations.measure),
}
ALONE = 'laws', 'expectations'


def measure(row, program):
    """Measures a row and keeps its numbers; says so, or which peer is not there."""
    peers_of, measured = ROWS[row]
    peers = peers_of()
    if not peers and row not in ALONE:
        print(f'{row}: no peer is there, its numbers stay as they are', flush=True)
        return
    before, numbers = stored.load(row), measured(program)
    if row == 'codel' and before is not None:
        peers = keep_absent(peers, numbers, before)
    stored.save(row, peers, numbers)
    print(f'{row}: measured' + ''.join(f', {name} {version}' for name, version in peers.items()), flush=True)


def keep_absent(peers, numbers, before):
    """The peers, and those that are not there with the numbers that were kept of them, their version and date."""
    absent = {name: version for name, version in before['peers'].items() if name not in peers}
    for name in absent:
        codel.keep(numbers, before['numbers'], name)
    return {**peers, **{name: version if ' of ' in version else f'{version} of {before["date"]}' for name, version in absent.items()}}


def main():
    parser = argparse.ArgumentParser(description=__doc__, formatter_class=argparse.RawDescriptionHelpFormatter)
    parser.add_argument('rows', metavar='ROW', nargs='*')
    parser.add_argument('--program', metavar='PATH', default=PROGRAM)
    parser.add_argument('--page', action='store_true')
    parser.add_argument('--pictures', action='store_true')
    given = parser.parse_args()
    unknown = [row for row in given.rows if row not in ROWS]
    if unknown:
        print(f'validate.py: no row is named {unknown[0]}: there are {", ".join(ROWS)}', file=sys.stderr)
        return 2
    if not (given.page or given.pictures):
        if not os.path.exists(given.program):
            print(f'validate.py: {given.program} is not there: build it with `make run`', file=sys.stderr)
            return 1
        for row in given.rows or ROWS:
            measure(row, given.program)
    if given.pictures:
        from validation import pictures
        for path in pictures.draw(given.program):
            print(os.path.relpath(path, TOP))
        return 0
    page.write()
    return 0


if __name__ == '__main__':
    sys.exit(main())
