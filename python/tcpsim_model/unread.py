"""Texts for comparing, of people who have not read the form: units, capitals, tabs, the ends of lines of other systems."""
from tcpsim_model.spelling import joined
from tcpsim_model.text import NUMBER, lines_of, words_of

# What stands behind a number of one who has not read the form, and what at the beginning of a file that is no scenario.
BEHIND = (b'', b'ns', b'us', b'ms', b's', b'm', b'S', b'k', b'K', b'M', b'G', b'T', b'kbit', b'mbit', b'Mbit', b'Gbit/s', b'Mbps', b'bits/s',
          b'b', b'Mb', b'MB', b'B', b'kB', b'bytes', b'kbytes', b'packets', b'kk', b'.', b'.s', b'e3', b',000', b'/s')
CAPTURES = b'\xd4\xc3\xb2\xa1\2\0\4\0', b'\xa1\xb2\x3c\x4d\0\2\0\4', b'\n\r\r\n\x1c\0\0\0', b'\x1f\x8b\x08\0'


def other_number(word, pick):
    """A number with a unit, a fraction, zeros in front, or all of these."""
    digits = pick.choice((word, b'10', b'64', str(pick.randrange(2000)).encode(), b'0', b'9' * pick.randint(10, 25)))
    at = pick.randint(0, len(digits))
    fraction = pick.choice((b'', b'', b'.5', b'.0', b'.25', b'.000', b'.' + digits[at:], b'.' + b'0' * pick.randint(1, 25) + b'1'))
    return pick.choice((b'', b'', b'', b'0', b'+')) + digits[:at or None] + fraction + pick.choice(BEHIND)


def other_name(word, pick):
    """A name with capitals, with signs, with a digit in front, or too long."""
    return pick.choice((word.title(), word.upper(), word + b'_1', b'_' + word, word[:1] + b'-B', b'7' + word, b'7_', word * 16, b'Host_%d.b' % pick.randrange(99)))


def unread(text, pick):
    """A text of one who has not read the form: another word, the ends of lines or the spaces of other systems, or no text."""
    lines, change = lines_of(text), pick.randrange(10)
    n = pick.choice([n for n, line in enumerate(lines) if words_of(line)])
    if change == 0:
        return pick.choice(CAPTURES) + text
    if change == 1:
        return b'\r\n'.join(lines) + pick.choice((b'', b'\r\n'))
    if change == 2:
        lines[n] = lines[n].replace(b' ', b'\t', pick.randint(1, 3))
    else:
        words = words_of(lines[n])
        place = pick.randrange(len(words))
        other = other_number if NUMBER.fullmatch(words[place]) else other_name
        words[place] = other(words[place], pick)
        lines[n] = b' '.join(words)
    return joined(lines)
