"""What to write instead of a word or a byte of a text that is refused (docs/FORMATS.md, "What to write instead")."""
import re

from tcpsim_model.scenario import RANGES

CAPTURES = b'\xd4\xc3\xb2\xa1', b'\xa1\xb2\xc3\xd4', b'\x4d\x3c\xb2\xa1', b'\xa1\xb2\x3c\x4d', b'\x0a\x0d\x0d\x0a'
BYTES = {
    b'\t': 'words are parted by spaces: write a space for each tab',
    b'\r': "lines end in a line feed alone, not CRLF: tr -d '\\r' takes the carriage returns away",
}
STATEMENT = 'a statement is sim, node, link, flow, route or lose'
NAME = 'a name is a small letter and then up to 14 small letters or digits'
FORMS = {       # how many words a statement has
    b'sim': 'sim END is 2 words',
    b'node': 'node NAME KIND is 3 words',
    b'link': 'link NAME FROM TO RATE DELAY droptail CAP is 8 words, with codel CAP TARGET INTERVAL MAXPACKET 11',
    b'flow': 'flow NAME SENDER RECEIVER MSS SEGMENTS START RWND DELACK is 9 words, with a variant 11',
    b'route': 'route ROUTER DEST LINK is 4 words',
    b'lose': 'lose LINK NUMBER is 3 words',
}
CHOSEN = {      # statement and number of a word: the words that it can be
    (b'node', 2): 'the kind of a node is sender, receiver or router',
    (b'link', 6): 'the kind of a queue is droptail or codel',
    (b'flow', 9): 'the recovery of a flow is reno or newreno',
    (b'flow', 10): 'the initial window of a flow is iw3 or iw10',
}
# Statement and number of a word: its name in docs/FORMATS.md, its range by that of the model, what it counts, and what else bounds it.
NUMBERS = {
    (b'sim', 1): ('END', 'end', 'nanoseconds', ''),
    (b'link', 4): ('RATE', 'rate', 'bits per second', ''),
    (b'link', 5): ('DELAY', 'delay', 'nanoseconds', ''),
    (b'link', 7): ('CAP', 'capacity', 'packets', ''),
    (b'link', 8): ('TARGET', 'target', 'nanoseconds', ''),
    (b'link', 9): ('INTERVAL', 'interval', 'nanoseconds', ''),
    (b'link', 10): ('MAXPACKET', 'maxpacket', 'bytes', ''),
    (b'flow', 4): ('MSS', 'mss', 'bytes', ''),
    (b'flow', 5): ('SEGMENTS', 'segments', 'segments', ''),
    (b'flow', 6): ('START', 'start', 'nanoseconds', ', and below END'),
    (b'flow', 7): ('RWND', 'rwnd', 'bytes', ', and at least MSS'),
    (b'flow', 8): ('DELACK', 'delack', 'nanoseconds', ''),
    (b'lose', 2): ('NUMBER', 'lose', 'packets', ", and above the link's last one"),
}
MEANT = re.compile(rb'([0-9]+)(?:\.([0-9]*))?(.*)', re.S)
MOST = 2**64 - 1            # the greatest number that the digits of such a word may make, without their point
PREFIX = rb'([kmgtKMGT]?)'
UNITS = {       # what is counted: what can stand behind the digits
    'nanoseconds': re.compile(rb'(|ns|us|ms|s|\xc2\xb5s|\xce\xbcs)'),        # the micro sign, and the Greek letter
    'bits per second': re.compile(PREFIX + rb'(?:|b|bit|bits|bps|b/s|bit/s|bits/s)'),
    'bytes': re.compile(PREFIX + rb'(?:|B|bytes)'),
    'packets': re.compile(PREFIX),
    'segments': re.compile(PREFIX),
}
EXPONENT = re.compile(rb'[eE]\+?(0*(?:1?[0-9]))')
POWERS = {b'\xc2\xb5s': 3, b'\xce\xbcs': 3, b'': 0, b'ns': 0, b'us': 3, b'ms': 6, b's': 9, b'k': 3, b'm': 6, b'g': 9, b't': 12}


def meant(word, counted, least, greatest):
    """The number in its range that a word means, with a unit, a fraction or zeros in front; None where it means none."""
    found = MEANT.fullmatch(word)
    if not found:
        return None
    if unit := UNITS[counted].fullmatch(found[3]):
        power = POWERS[unit[1].lower()]
    elif exponent := EXPONENT.fullmatch(found[3]):
        power = int(exponent[1])
    else:
        return None
    decimals = found[2] or b''
    left = power - len(decimals.rstrip(b'0'))
    digits = (found[1] + decimals).lstrip(b'0')
    if left < 0 or len(digits) > len(str(MOST)) or int(digits or b'0') > MOST:
        return None
    value = int((found[1] + decimals.rstrip(b'0')).lstrip(b'0') or b'0') * 10**left
    return value if least <= value <= greatest else None


def of_number(word, name, field, counted, more, code):
    least, greatest = RANGES[field]
    number = meant(word, counted, least, greatest) if code == 'E4' else None
    told = f'{name} is a whole number of {counted}, {least} to {greatest}{more}'
    return told if number is None else f'{told}: write {number}'


def of_name(word):
    letters = re.sub(rb'[^a-z0-9]', b'', word.lower()).lstrip(b'0123456789')[:15]
    return f'{NAME}: write {letters.decode()}' if letters else NAME


def of_byte(data, line):
    """The sentence on the first byte of a line that is not printable."""
    if data.startswith(CAPTURES):
        return 'this is a capture of packets (pcap), and tcpsim reads scenarios'
    at = next(re.finditer(rb'[^ -~]', line)).start()
    if line[at:at + 1] in BYTES:
        return BYTES[line[at:at + 1]]
    words = list(re.finditer(rb'[^ ]+', line.split(b'#')[0]))
    for place, word in enumerate(words):
        row = NUMBERS.get((words[0][0], place))
        if row and word.start() <= at < word.end() and meant(word[0], row[2], *RANGES[row[1]]) is not None:
            return of_number(word[0], *row, 'E4')
    return ''


def advice(data, line, code, word):
    """The sentence on the faulty word of a line of a text, or on its first byte that is not printable; '' where there is none."""
    words = line.split(b'#')[0].split()
    if code == 'E1':
        return of_byte(data, line)
    if code == 'E2':
        return STATEMENT
    if code == 'E3':
        return f'{FORMS[words[0]]}, and this line has {len(words)}'
    if code not in ('E4', 'E5'):
        return ''
    at = words[0], word.place
    if at in NUMBERS:
        return of_number(word, *NUMBERS[at], code)
    return CHOSEN[at] if at in CHOSEN else of_name(word)
