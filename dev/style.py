#!/usr/bin/env python3
"""Counts long sentences and long lines of each page, which may only become fewer (dev/style.txt).

    dev/style.py [--write] [PAGE ..]

Without options it prints, of each page, how many sentences have more than 25 words, the words of the longest, how many lines have
more than 400 characters, and the characters of the longest. Of the pages that are named it prints the long sentences too. --write
lowers what dev/style.txt allows to these counts, and never raises it: a new page is allowed none.
"""
import glob
import os
import re
import sys

TOP = os.path.dirname(os.path.dirname(os.path.abspath(__file__)))
ALLOWED = os.path.join(TOP, 'dev', 'style.txt')
WORDS, CHARACTERS = 25, 400
NEW = 0, WORDS, 0, CHARACTERS      # what a new page is allowed
PAGES = '*.md', 'crates/*.md', 'docs/*.md', 'bench/*.md', 'dev/*.md', 'python/*.md', 'python/tcpsim_model/*.md', 'editors/*.md'
HEAD = '# page: sentences of more than 25 words, the longest, lines of more than 400 characters, the longest (dev/style.py)\n'
# Where a sentence ends: behind its last sign, which brackets and quotes may follow, before a word that begins another.
END = re.compile(r'(?:(?<=[^.]\.)|(?<=[!?]))[)\]*"_]*\s+(?=[\W_]*[A-Z0-9`])')


def pages():
    return sorted(os.path.relpath(it, TOP) for pattern in PAGES for it in glob.glob(f'{TOP}/{pattern}'))


def sentences(text):
    """The sentences of a page, of a table each cell for itself. What stands in a fence or a comment is none."""
    text = re.sub(r'^```.*?^```$|<!--.*?-->', '', text, flags=re.M | re.S)
    text = re.sub(r'!?\[([^]]*)\]\([^)]*\)', r'\1', text)
    blocks = re.split(r'\n(?=\s*(?:[-*#|>]|\d+\.) ?)|\n\s*\n|(?<!\\)\|', text)
    return [' '.join(it.split()) for block in blocks for it in END.split(block) if it.strip()]


def words_of(sentence):
    return len(re.findall(r'\S*\w\S*', sentence))


def long_sentences(text):
    return [it for it in sentences(text) if words_of(it) > WORDS]


def counts(text):
    lines = [len(line) for line in text.splitlines()]
    return (len(long_sentences(text)), max(map(words_of, sentences(text))),
            sum(line > CHARACTERS for line in lines), max(lines))


def found():
    """The counts of each page."""
    return {page: counts(open(os.path.join(TOP, page), encoding='utf-8').read()) for page in pages()}


def allowed():
    """What each page may have at most."""
    with open(ALLOWED, encoding='utf-8') as file:
        rows = [line.split() for line in file if not line.startswith('#')]
    return {page: tuple(map(int, numbers)) for page, *numbers in rows}


def bounds():
    """What each page may have at most, those of dev/style.txt or of a new page."""
    least = allowed()
    return {page: least.get(page, NEW) for page in pages()}


def main(words):
    now = found()
    if '--write' in words:
        least = bounds()
        with open(ALLOWED, 'w', encoding='utf-8') as file:
            file.write(HEAD)
            for page, numbers in now.items():
                kept = [max(new, min(number, most)) for new, number, most in zip(NEW, numbers, least[page])]
                file.write(' '.join([page, *map(str, kept)]) + '\n')
    named = [os.path.relpath(os.path.abspath(it), TOP) for it in words if it != '--write']
    for page in named or now:
        print(page, *now[page])
        for sentence in long_sentences(open(os.path.join(TOP, page), encoding='utf-8').read()) if named else ():
            print(f'  {words_of(sentence)}: {sentence}')


if __name__ == '__main__':
    main(sys.argv[1:])
