"""Tests of the shells' completions and of the man pages. bash is asked by
`compgen` through the functions, and bash and zsh by a terminal of their own in which a line is typed; fish by
`complete -C`. The words of each subcommand are those of its `--help`, in each shell and in the man page. A
shell that is not there is left out, which is said.
"""
import os
import re
import subprocess
import sys

import pytest

pexpect = pytest.importorskip('pexpect', reason='no pexpect: apt-get install python3-pexpect')

from clone import BIN, PROGRAM, TOP, Folder, read_text  # noqa: E402

COMPLETIONS = os.path.join(TOP, 'completions')
SUBCOMMANDS = ('asm', 'debug', 'dis', 'explain', 'figures', 'run')
TOOLS = ('run', 'debug', 'model', 'flows', 'plot', 'net', 'sweep', 'find', 'follow', 'stalls', 'time', 'diff', 'replay')
MARK = '@ready@'
PATIENCE = 60           # seconds for one answer, on a machine that is busy
# A line up to the cursor, and behind the stroke what its last word gets, completed. `scenario one.txt`, `scenario_two.txt` and
# the folder `shelf` with `inner.txt` are there; the completed word is the only one that fits. Of several that fit, as --access
# and --access-queue, what they have in common.
LINES = [(line.partition('|')[0], line.replace('|', '')) for line in (
    'tcpsim ru|n ', 'tcpsim --v|ersion ', 'tcpsim debug --wor|kers', 'tcpsim run --gro|ups', 'tcpsim run --workers 3|2 ',
    'tcpsim run --pro|gress ', 'tcpsim asm --ex|plain ', 'tcpsim debug --ex|plain ', 'tcpsim run --groups au|to ',
    'tcpsim run --groups=ea|ch ', 'tcpsim dis --h|elp ', 'tcpsim run < scenario_|two.txt ',
    'tcpsim run <scenario_|two.txt ', 'tcpsim run --groups each < scenario_|two.txt ', 'tcpsim asm < shelf/in|ner.txt ',
    'tcpsim asm < scenario\\ |one.txt ', 'tcpsim dis > scenario_|two.txt ', 'tcpsim run scenario_|two.txt ',
    'tcpsim asm sh|elf/', 'tcpsim exp|lain ', 'tcpsim fig|ures ', 'tcpsim figures --pro|gress ',
    'tcpsim figures scenario_|two.txt ', 'tcpsim explain gr|oups ', 'tcpsim-flows scenario_|two.txt ',
    'tcpsim-flows scenario_two.txt --ser|ies ', 'tcpsim-flows --program shelf/in|ner.txt ',
    'tcpsim-follow scenario_|two.txt ', 'tcpsim-follow scenario_two.txt --by|te ',
    'tcpsim-follow scenario_two.txt shelf/in|ner.txt ', 'tcpsim-stalls scenario_|two.txt ',
    'tcpsim-stalls scenario_two.txt --lon|ger ', 'tcpsim-stalls --ca|uses ',
    'tcpsim-time scenario_|two.txt ', 'tcpsim-time scenario_two.txt --pat|h ', 'tcpsim-diff scenario_|two.txt ', 'tcpsim-diff scenario_two.txt sh|elf/', 'tcpsim-debug --work|ers ', 'tcpsim-debug scenario_|two.txt ', 'tcpsim-net dumb|bell ',
    'tcpsim-net dumbbell --acc|ess', 'tcpsim-net dumbbell --que|ue ')]


class Shelf(Folder):
    """A folder with files to complete, and the tools on PATH."""

    def setup_method(self):
        super().setup_method()
        self.home, self.bin, self.folder = self.folder, os.path.join(self.folder, 'bin'), os.path.join(self.folder, 'here')
        os.makedirs(os.path.join(self.folder, 'shelf'))
        os.makedirs(self.bin)
        for name in ('scenario one.txt', 'scenario_two.txt', 'shelf/inner.txt'):
            self.put(name, '')
        for name in TOOLS:
            self.put(f'{self.bin}/tcpsim-{name}', f'#!/bin/sh\nexec {sys.executable} {BIN}/tcpsim-{name} "$@"\n', 0o700)
        self.put(f'{self.bin}/tcpsim', '#!/bin/sh\n[ "$*" = explain ] && printf "E4: a word\\nE10: no sim\\ngroups: none\\n"\n', 0o700)
        self.environment = {'PATH': f'{self.bin}:{os.environ["PATH"]}', 'HOME': self.home, 'TERM': 'dumb',
                            'LANG': 'C', 'INPUTRC': os.devnull, 'XDG_CONFIG_HOME': self.home}

    def run_shell(self, *words):
        done = subprocess.run(words, cwd=self.folder, env=self.environment, capture_output=True, text=True,
                              stdin=subprocess.DEVNULL, check=False, timeout=60)
        return done.stdout.splitlines()

    def compgen(self, function, *words):
        """bash's answers, all words that fit: those of the function, by `compgen`, or where it has none, files."""
        script = ('source "$1"; shift; function=$1; shift; COMP_WORDS=("$@"); COMP_CWORD=$(($# - 1)); "$function"; '
                  'if [ ${#COMPREPLY[@]} -gt 0 ]; then printf "%s\\n" "${COMPREPLY[@]}"; '
                  'elif complete -p "$1" | grep -q -- "-o default"; then compgen -f -- "${COMP_WORDS[COMP_CWORD]}"; fi')
        return sorted(self.run_shell('bash', '-c', script, 'bash', os.path.join(COMPLETIONS, 'tcpsim.bash'), function,
                                     *words))

    def fish(self, line):
        told = self.run_shell('fish', '--no-config', '-c', f'source {COMPLETIONS}/tcpsim.fish; complete -C "{line}"')
        return sorted(word.split('\t')[0] for word in told)


def help_of(*words):
    """What a command prints as its help."""
    return subprocess.run([*words, '--help'], capture_output=True, text=True, stdin=subprocess.DEVNULL, check=True,
                          timeout=60).stdout


def long_options(text):
    return set(re.findall(r'(?<![\w-])--[a-z][a-z-]*', text))


def manual(name):
    """A man page with plain signs, and where fonts are changed a space."""
    return re.sub(r'\\f[A-Z]', ' ', read_text('man', f'{name}.1').replace('\\-', '-'))


def part_of(page, head):
    return re.search(rf'^\.SH {head}\n((?:(?!\.SH ).*\n)*)', page, re.M)[1]


@pytest.mark.built
class TestWords(Shelf):
    """Each word that the program's help lists, and no other, in each shell and in the man page."""

    def setup_method(self):
        super().setup_method()
        self.options = {name: long_options(help_of(PROGRAM, name)) for name in SUBCOMMANDS}
        self.groups = re.search(r'--groups <G> .*: (one, each, auto), or numbers', help_of(PROGRAM, 'run'))[1].split(', ')

    def test_subcommands_are_those_of_the_help(self):
        told = re.findall(r'^  ([a-z]+)  ', help_of(PROGRAM).partition('Commands:')[2], re.M)
        assert sorted(told) == sorted(SUBCOMMANDS)
        assert {it for it in self.compgen('_tcpsim', 'tcpsim', '') if it[0] != '-'} == set(told)
        assert set(re.findall(r'^\.B tcpsim ([a-z]+)$', part_of(manual('tcpsim'), 'SYNOPSIS'), re.M)) == set(told)
        for name in told:
            assert f'.TP\n.B {name}\n' in part_of(manual('tcpsim'), 'SUBCOMMANDS')

    def test_bash(self):
        for name in SUBCOMMANDS:
            assert set(self.compgen('_tcpsim', 'tcpsim', name, '--')) == self.options[name]
        assert self.compgen('_tcpsim', 'tcpsim', 'run', '--groups', '') == sorted(self.groups)

    def test_zsh(self):
        text = read_text(COMPLETIONS, '_tcpsim').partition('_tcpsim_tool()')[0]
        assert long_options(text) == set().union(*self.options.values()) | {'--version'}
        assert set(re.findall(r"^    '([a-z]+):", text, re.M)) == set(SUBCOMMANDS)
        assert f'({" ".join(self.groups)})' in text

    def test_fish(self):
        lines = [line for line in read_text(COMPLETIONS, 'tcpsim.fish').splitlines() if line.startswith('complete -c tcpsim ')]
        told = {name: set() for name in SUBCOMMANDS}
        for line in lines:
            option = re.search(r' -l ([a-z-]+)', line)
            where = re.search(r"__fish_seen_subcommand_from ([a-z ]+)'", line)
            for name in where[1].split() if where else SUBCOMMANDS:
                if option and '__fish_use_subcommand' not in line:
                    told[name].add(f'--{option[1]}')
        assert told == self.options
        assert any(f"-a '{' '.join(self.groups)}'" in line for line in lines)

    def test_the_manual(self):
        page = manual('tcpsim')
        for name in SUBCOMMANDS:
            form = re.search(rf'^\.B tcpsim {name}\n((?:(?!\.br).*\n)*)', part_of(page, 'SYNOPSIS'), re.M)[1]
            assert long_options(form) == self.options[name] - {'--help'}
            assert ('FILE' in form) == ('[FILE]' in help_of(PROGRAM, name))
        heads = re.findall(r'^\.TP\n(.*)', part_of(page, 'OPTIONS'), re.M)
        assert long_options('\n'.join(heads)) == set().union(*self.options.values()) | {'--version'}
        for value in self.groups:
            assert f'\n.B {value}\n' in part_of(page, 'OPTIONS')


def test_a_tool_s_page_has_each_option_of_its_help():
    for tool in TOOLS:
        words = [sys.executable, f'{BIN}/tcpsim-{tool}']
        try:
            text = help_of(*words)
            for shape in re.findall(r'^    ([a-z][a-z-]*)(?: .*)?$', text, re.M) if tool == 'net' else ():
                text += help_of(*words, shape)
        except subprocess.CalledProcessError:   # its library is not there, as matplotlib
            continue
        assert long_options(text) - long_options(manual(f'tcpsim-{tool}')) - {'--help'} == set()


class TestCompgen(Shelf):
    def test_words_of_the_program(self):
        for words, answer in ((['tcpsim', ''], ['--help', '--version', '-V', '-h', 'asm', 'debug', 'dis', 'explain', 'figures', 'run']),
                              (['tcpsim', 'd'], ['debug', 'dis']),
                              (['tcpsim', 'run', '--'], ['--explain', '--groups', '--help', '--progress', '--workers']),
                              (['tcpsim', 'dis', '--'], ['--explain', '--help']),
                              (['tcpsim', 'debug', '--'], ['--explain', '--groups', '--help', '--workers']),
                              (['tcpsim', 'figures', '--'], ['--every', '--explain', '--from', '--help', '--names', '--progress', '--series']),
                              (['tcpsim', 'run', '--workers', ''], ['1', '16', '2', '32', '4', '64', '8']),
                              (['tcpsim', 'run', '--groups', '=', 'o'], ['one']),
                              (['tcpsim', 'run', '--groups', '='], ['auto', 'each', 'one']),
                              (['tcpsim', 'run', '--wrong'], [])):
            assert self.compgen('_tcpsim', *words) == answer

    def test_files(self):
        for words, answer in ((['tcpsim', 'run', '<', 's'], ['scenario one.txt', 'scenario_two.txt', 'shelf']),
                              (['tcpsim', 'run', '<', 'scenario_'], ['scenario_two.txt']),
                              (['tcpsim', 'run', '--workers', '2', '<', 'shelf/'], ['shelf/inner.txt']),
                              (['tcpsim', '<', 'scenario_'], ['scenario_two.txt']),
                              (['tcpsim', 'run', 'scenario_'], ['scenario_two.txt'])):
            assert self.compgen('_tcpsim', *words) == answer
        assert self.compgen('_tcpsim_tool', 'tcpsim-flows', 'scenario_') == ['scenario_two.txt']
        assert self.compgen('_tcpsim_tool', 'tcpsim-plot', 'a.txt', '-o', 'she') == ['shelf']

    def test_a_tool_has_the_options_of_its_help(self):
        for tool in TOOLS:
            if not os.path.exists(os.path.join(BIN, f'tcpsim-{tool}')):
                continue
            text = '\n'.join(self.run_shell(f'{self.bin}/tcpsim-{tool}', '--help'))
            if not text:            # its library is not there, as matplotlib
                continue
            options = re.findall(r'^  (?:-\w(?: [^\s,]+)?, )?(--[a-z-]+)', text, re.MULTILINE)
            assert '--help' in options
            assert set(options) - set(self.compgen('_tcpsim_tool', f'tcpsim-{tool}', '--')) == set()
        for tool, options in (('flows', {'--series', '--from', '--to', '--busy', '--csv', '--program'}),
                              ('follow', {'--flow', '--byte', '--csv', '--program', '--help'}),
                              ('time', {'--flow', '--to', '--path', '--csv', '--alone', '--no-alone', '--plot', '--program'}),
                              ('stalls', {'--longer', '--flow', '--csv', '--program', '--causes', '--help'})):
            assert options <= set(self.compgen('_tcpsim_tool', f'tcpsim-{tool}', 'a.txt', '--')), tool

    def test_shapes_of_net(self):
        assert {'dumbbell', 'parking-lot', 'chain', 'tree'} <= set(self.compgen('_tcpsim_tool', 'tcpsim-net', ''))
        assert self.compgen('_tcpsim_tool', 'tcpsim-net', 'dumbbell', '--rtt') == ['--rtt']

    def test_all_commands_are_told(self):
        script = 'source "$1"; complete -p'
        told = self.run_shell('bash', '-c', script, 'bash', os.path.join(COMPLETIONS, 'tcpsim.bash'))
        assert sorted(line.split()[-1] for line in told if '-o default' in line) == \
            sorted(['tcpsim'] + [f'tcpsim-{tool}' for tool in TOOLS])


class TestInATerminal(Shelf):
    """Lines that are typed, in bash and in zsh."""

    def lines(self, *words, **environment):
        with pexpect.spawn(words[0], list(words[1:]), cwd=self.folder, env={**self.environment, **environment}, encoding='utf-8',
                           codec_errors='replace', timeout=PATIENCE) as shell:
            shell.sendline(f'echo {MARK[:3]}""{MARK[3:]}')
            shell.expect_exact(MARK)
            for line, completed in LINES:
                shell.send('\x15' + line + '\t')
                shell.expect(pexpect.TIMEOUT, timeout=.3)
                shell.send('\x07')      # the shell prints the line as it is, behind the mark
                shell.expect(re.escape(MARK) + r'<([^\r\n]*)>')
                # What may follow an option, a space or `=`, is the shell's own affair.
                assert shell.match[1].rstrip(' =') == completed.rstrip(' =')

    def test_bash(self):
        start = self.put('../start', f'source {COMPLETIONS}/tcpsim.bash\nPS1="$ "\n'
                         f'show() {{ printf "\\n{MARK}<%s>\\n" "$READLINE_LINE"; }}\nbind -x \'"\\C-g": show\'\n'
                         'bind "set bell-style none"\nbind "set enable-bracketed-paste off"\n')
        self.lines('bash', '--noprofile', '--rcfile', start, '-i')

    @pytest.mark.wants(zsh='zsh')
    def test_zsh(self):
        self.put(f'{self.home}/.zshrc', f'fpath=({COMPLETIONS} $fpath)\nautoload -Uz compinit\ncompinit -u -D\nPS1="$ "\n'
                 'unsetopt beep prompt_sp\n'
                 f'show() {{ print -r -- "\n{MARK}<$BUFFER>" }}\nzle -N show\nbindkey -e\nbindkey "^G" show\n')
        self.lines('zsh', '-i', ZDOTDIR=self.home)


class TestFish(Shelf):
    @pytest.mark.wants(fish='fish')
    def test_fish(self):
        for line, answer in (('tcpsim d', ['debug', 'dis']), ('tcpsim run --', ['--explain', '--groups', '--help', '--progress', '--workers']),
                             ('tcpsim asm --', ['--explain', '--help']), ('tcpsim run --groups a', ['auto']),
                             ('tcpsim explain E', ['E10', 'E4']),
                             ('tcpsim run --workers 3', ['32']), ('tcpsim run < scenario_', ['scenario_two.txt']),
                             ('tcpsim-flows scenario_', ['scenario_two.txt']), ('tcpsim-flows --ser', ['--series']),
                             ('tcpsim-follow scenario_', ['scenario_two.txt']), ('tcpsim-follow --by', ['--byte']),
                             ('tcpsim-stalls scenario_', ['scenario_two.txt']), ('tcpsim-stalls --lon', ['--longer']),
                             ('tcpsim-find --che', ['--check']), ('tcpsim-stalls --ca', ['--causes']), ('tcpsim-time --pat', ['--path']),
                             ('tcpsim-net dumb', ['dumbbell'])):
            assert self.fish(line) == answer
