"""Which sender a flow has. A field of `Flow` says each thing of it, as yes or no; here are the words for it in a text, its bit
in an image, and how often a random flow has it."""
from itertools import product

# Of each field its bit in the image's byte, and its share of random flows.
FIELDS = {'newreno': (1, 0.6), 'iw10': (2, 0.4)}
ALL_BITS = sum(bit for bit, _ in FIELDS.values())
# A flow's last two words, both or neither, and the fields that each sets.
TCPS, WINDOWS = {b'reno': (), b'newreno': ('newreno',)}, {b'iw3': (), b'iw10': ('iw10',)}


def of_flow(flow):
    """What a flow's fields say, by their names."""
    return {field: getattr(flow, field) for field in FIELDS}


def of_byte(byte):
    """What a byte of an image says, in the fields' order."""
    return [bool(byte & bit) for bit, _ in FIELDS.values()]


def byte_of(flow):
    return sum(bit for field, (bit, _) in FIELDS.items() if getattr(flow, field))


def of_words(*words):
    """What the two words of a text say, by the fields' names."""
    return {field: field in (*TCPS[words[0]], *WINDOWS[words[1]]) for field in FIELDS}


def words_of(flow):
    return b' '.join(next(words for words in product(TCPS, WINDOWS) if of_words(*words) == of_flow(flow)))


def drawn(pick):
    """A random variant, in the fields' order."""
    return [pick.random() < share for _, share in FIELDS.values()]
