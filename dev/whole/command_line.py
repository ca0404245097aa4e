"""Words of the command line: those that are refused, and ways to write the same."""

# Words that are refused whatever the input is, beside those of test_shell.py. None of it is read.
MISTAKEN = [words.split(' ') for words in (
    'run --workers two', 'run --workers 1 --workers 1', 'run --groups', 'debug --groups', '--groups one run', 'asm --groups one',
    'dis --workers 1', 'run --workers 1,2', 'debug --workers 1,2', 'run --workers 18446744073709551617',
    'debug --workers 18446744073709551617', 'run --workers=0', 'run --workers=65', 'run --workers=-1', 'run --workers=')]

# Ways to share a run out, one option alone, and options that are one word with their values.
WRITTEN = [
    ['--groups', 'each'],
    ['--workers', '64'],
    ['--groups=0,1'],
    ['--workers=2'],
    ['--groups=each', '--workers=2'],
    ['--workers=64', '--groups=each'],
    ['--workers=01', '--groups', '63,7'],
    ['--groups', 'one', '--workers=+1'],
]

# Groups that two nodes don't have: too few, too many, a number over 63 or spelt otherwise, and what is no list.
NO_GROUPS = [
    *(['--groups', it] for it in ('0', '0,1,2', '0,64', '0,01', '0,', '', '+0,1', 'ones')),
    *([f'--groups={it}'] for it in ('', '0', '00,1', '64,0', '0,256', '0,18446744073709551616', '1,', ',1', ',', ',,', '0,,1', '-0,1',
                                    '0, 1', ' 0,1', '0,1 ', '0;1', 'a,b', 'One', 'each,', 'one,one', '0,1\n')),
    ['--workers=64', '--groups=0,01'],
    ['--groups', '0,64', '--workers', '2'],
]

# Inputs that are refused before their groups are, as there is no scenario.
BEFORE_GROUPS = [
    (b'sim 01', b'refused E4 line 1\n'),
    (b'sim 5', b'refused L3 line 0\n'),
    (b'', b'refused E10 line 0\n'),
]

# What is said of the code of a want of memory, which has no example.
MEMORY = '''\
M: there was no memory, the run has more than 10^15 events, or a worker did not give back what it ran

The command has changed nothing and can be given again; the session goes on. There is no example, as
it depends on the machine: `ulimit -v` takes memory away.
'''
