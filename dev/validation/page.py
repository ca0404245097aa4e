"""Writes the tables of docs/VALIDATION.md from the numbers that are kept; its text around them is written by hand."""
import os
import re
from collections.abc import Callable

from validation import stored
from validation.ns2_sender import SWITCHES

TOP = os.path.dirname(os.path.dirname(os.path.dirname(os.path.abspath(__file__))))
PAGE = os.path.join(TOP, 'docs', 'VALIDATION.md')
MS = 10**6


def table(titles, rows):
    """The lines of a table."""
    return ['| ' + ' | '.join(titles) + ' |', '|' + '---|' * len(titles)] + [
        '| ' + ' | '.join(map(str, row)) + ' |' for row in rows]


def made(kept):
    """With what a row was measured, and when."""
    peers = ' and '.join(f'{name} {version.removeprefix("ns-")}' for name, version in sorted(kept['peers'].items()))
    return f'Measured {kept["date"]}' + (f' with {peers}.' if peers else ', with no other program.')


def count(rows, key):
    return sum(bool(row[key]) for row in rows)


def rules(kept):
    numbers, lines = kept['numbers'], [made(kept), '']
    names = [name for name in ('Reno', 'NewReno', 'Fall and Floyd, Reno', 'Fall and Floyd, NewReno') if name in numbers]
    lines += table(('Scenarios', 'How many', 'Same sends, tcpsim as it is', 'Same sends, with ns-2\'s rules', 'And with equal moments turned',
                    'With timeouts', 'Same timeouts, with ns-2\'s rules'),
                   [(name, len(rows := numbers[name]), count(rows, 'plain'), count(rows, 'ruled'),
                     sum(row['ruled'] or row.get('ties') is not None for row in rows),
                     sum(row['timeouts'] > 0 for row in rows),
                     sum(row['timeouts'] > 0 and row['timeouts ruled'] for row in rows)) for name in names])
    tried = [row['needs'] for rows in numbers.values() for row in rows if 'needs' in row]
    lines += ['', f'ns-2\'s rules. The last column has in how many of {len(tried)} scenarios the two differ without that rule:', '']
    lines += table(('ns-2', 'The RFC', 'Follows it', 'Scenarios'),
                   [(what[0].upper() + what[1:], rfc, who, sum(name in needs for needs in tried) or '-')
                    for name, (what, rfc, who) in SWITCHES.items()])
    return lines


def beside(found):
    if found is None:
        return '-'
    if found['same list']:
        return f'all {found["drops"]:,}'
    at, *moments = found['first other']
    where = f', by {abs(moments[1] - moments[0]) / MS:.3f} ms' if moments else ''
    return f'{found["same"]:,} of {found["drops"]:,}; first other: drop {at:,}{where}'


def codel(kept):
    numbers, lines = kept['numbers'], [made(kept), '']
    lines += table(('Run', 'Packets', 'Drops', 'RFC 8289\'s pseudocode', 'Linux', 'ns-3'),
                   [(f'{rate}bit/s, {flows} flow{"s" * (flows > 1)}, {end}', f'{row["offered"]:,}', f'{row["drops"]:,}',
                     *(beside(row.get(name)) for name in ('RFC 8289', 'Linux', 'ns-3')))
                    for row in numbers['runs'] for rate, flows, end in [row['run']]])
    law = numbers['control law']
    names = [name for name in ('tcpsim', 'RFC 8289', 'Linux', 'ns-3') if name in law]
    lines += ['', 'One drop state: how long after the first drop each is, in ms. A packet takes 1.2 ms on the link.', '']
    lines += table(('Drop', *names), [(n + 1, *(f'{law[name][n] / MS:.1f}' for name in names)) for n in (1, 2, 3, 4, 5, 9, 19, 39)])
    return lines


def laws(kept):
    numbers, lines = kept['numbers'], [made(kept)]
    titles = {'utilization by buffer': ('Places (a product is 100)', 'part of the link that is used'),
              'a standing queue': ('Window, segments', 'packets that wait, in the mean'),
              'square root': ('Loss', 'segments in a round trip'),
              'rounds of slow start': ('Transfer', 'round trips'),
              'fairness with CoDel': ('Flows', 'Jain\'s index')}
    for name, (at, what) in titles.items():
        lines += ['', f'**{name[0].upper()}{name[1:]}**: {what}.', '']
        lines += table((at, 'Law', 'tcpsim', 'Apart', 'May be apart'),
                       [(point['at'], f'{point["law"]:.4g}', f'{point["found"]:.4g}', f'{abs(point["found"] / point["law"] - 1):.2%}',
                         f'{point["within"]:.1%}') for point in numbers[name]])
    lines += ['', '**Small buffers**: flows before a queue of product / sqrt(flows). The law says that the link stays full.', '']
    lines += table(('Flows', 'Places', 'Used', 'Timeouts in 100 s'),
                   [(row['flows'], row['queue'], f'{row["used"]:.3f}', f'{row["timeouts"]:,}') for row in numbers['small buffers']])
    return lines


def phases(kept):
    numbers, lines = kept['numbers'], [made(kept), '']
    names = [name for name in ('tcpsim', 'ns-2', 'ns-2 with overhead_', '--spread', '--mice 10', '--mice 20', '--spread --mice 20')
             if name in numbers[0]]
    return lines + table(('Jain\'s index', *(f'`{name}`' if name.startswith('--') else name for name in names)),
                         [(row['name'], *(f'{row[name]:.2f}' for name in names)) for row in numbers])


def newreno(kept):
    numbers, lines = kept['numbers'], [made(kept), '']
    names = [name for name in ('Reno, open', 'NewReno, open', 'NewReno, bounded', 'ns-2 Newreno, open') if name in numbers[0]]
    return lines + table(('One flow, a minute: used, timeouts', 'Window, segments', *names),
                         [(row['name'], row['window'], *(f'{used:.3f}, {timeouts:,}' for used, timeouts in map(row.get, names)))
                          for row in numbers])


def aggregates(kept):
    numbers, lines = kept['numbers'], [made(kept), '']
    forms: tuple[tuple[str, str, Callable[[float], str]], ...] = (
        ('goodput', 'Goodput, Mbit/s', lambda value: f'{value / 1e6:.2f}'), ('loss', 'Loss, %', lambda value: f'{100 * value:.2f}'),
        ('timeouts', 'Timeouts', '{:,}'.format), ('jain', 'Jain', '{:.3f}'.format), ('queue', 'Mean queue', '{:.1f}'.format))
    return lines + table(('Dumbbell of 16 flows', *(title for _, title, _ in forms)),
                         [(row['name'], *(f'{form(row["tcpsim"][key])} / {form(row["ns-2"][key]) if "ns-2" in row else "-"}'
                                          for key, _, form in forms)) for row in numbers])


def expectations(kept):
    numbers, lines = kept['numbers'], [made(kept), '']
    return lines + table(('ns-3\'s test', 'Expects', 'tcpsim'),
                         [(name, expected, ('' if kept_so else 'NOT: ') + found) for name, expected, kept_so, found in numbers])


TABLES = {'rules': rules, 'codel': codel, 'laws': laws, 'phases': phases, 'newreno': newreno, 'aggregates': aggregates, 'expectations': expectations}


def written(text):
    """The page's text with the tables of all rows that are kept."""
    for row, tables in TABLES.items():
        kept = stored.load(row)
        if kept is not None:
            begin, end = f'<!-- {row}: dev/validate.py writes this -->', '<!-- end -->'
            body = '\n'.join(tables(kept))
            text, found = re.subn(f'{re.escape(begin)}.*?{re.escape(end)}', lambda _: f'{begin}\n\n{body}\n\n{end}', text, flags=re.S)
            assert found == 1, f'docs/VALIDATION.md has no place for {row}'
    return text


def read():
    with open(PAGE, encoding='utf-8') as file:
        return file.read()


def write():
    """Writes the page."""
    text = written(read())
    with open(PAGE, 'w', encoding='utf-8') as file:
        file.write(text)
