"""The two queues of a link's sending side, and queues of others' making. An entry is (packet, entry time)."""
import re
from collections import deque, namedtuple
from math import isqrt

COUNT_STOPS = 4_294_967_295
WORD = re.compile('[a-z][a-z0-9]{0,14}')
# A flow's number, whether it is an acknowledgement, its byte or acknowledgement number, and how many bytes it has.
Packet = namedtuple('Packet', 'flow is_ack number bytes')


def gap(interval, count):
    """The greatest d with d * d * count <= interval * interval: interval / sqrt(count)."""
    return isqrt(interval * interval // count)


class DropTail:
    __slots__ = ('capacity', 'entries')

    def __init__(self, capacity):
        self.capacity = capacity
        self.entries: deque[tuple[Packet, int]] = deque()

    def offer(self, packet, now):
        """Whether the packet entered; it is refused by a full queue."""
        if len(self.entries) >= self.capacity:
            return False
        self.entries.append((packet, now))
        return True

    def take(self, now):
        """The packets dropped, in order, and the one given (or None)."""
        return (), self.entries.popleft()[0] if self.entries else None

    def dump(self):
        return ''


class Codel(DropTail):
    """RFC 8289 section 5, packet by packet as its pseudocode has it."""
    __slots__ = ('target', 'interval', 'maxpacket', 'bytes', 'first_above', 'drop_next', 'count',
                 'lastcount', 'dropping')

    def __init__(self, capacity, target, interval, maxpacket):
        super().__init__(capacity)
        self.target, self.interval, self.maxpacket = target, interval, maxpacket
        self.bytes = 0
        self.first_above = None
        self.drop_next = self.count = self.lastcount = 0
        self.dropping = False

    def offer(self, packet, now):
        entered = super().offer(packet, now)
        if entered:
            self.bytes += packet[3]
        return entered

    def judged_head(self, now):
        """Takes the head: the packet (None where there is none) and whether it may be dropped."""
        if not self.entries:
            self.first_above = None
            return None, False
        packet, entry = self.entries.popleft()
        self.bytes -= packet[3]
        if now - entry < self.target or self.bytes <= self.maxpacket:
            self.first_above = None
            return packet, False
        if self.first_above is None:
            self.first_above = now + self.interval
            return packet, False
        return packet, now >= self.first_above

    def take(self, now):
        dropped = []
        packet, ok = self.judged_head(now)
        if self.dropping:
            if not ok:
                self.dropping = False
            while self.dropping and now >= self.drop_next:
                dropped.append(packet)
                self.count = min(self.count + 1, COUNT_STOPS)
                packet, ok = self.judged_head(now)
                if ok:
                    self.drop_next += gap(self.interval, self.count)
                else:
                    self.dropping = False
        elif ok:
            dropped.append(packet)
            packet, _ = self.judged_head(now)
            self.dropping = True
            delta = self.count - self.lastcount
            recent = now - self.drop_next < 16 * self.interval
            self.count = delta if delta > 1 and recent else 1
            self.drop_next = now + gap(self.interval, self.count)
            self.lastcount = self.count
        return dropped, packet

    def dump(self):
        first = '-' if self.first_above is None else self.first_above
        return (f' first={first} next={self.drop_next} count={self.count} last={self.lastcount}'
                f' drop={int(self.dropping)}')


class WrongQueue(Exception):
    """A queue of another's making does what no queue can."""


class Own:
    """A queue of another's making: an object that has `offer(packet, now, drop)` and `take(now, drop)`. Each calls
    `drop(packet)`, or `drop(packet, word)`, for what it drops; `take` answers the packet that the link sends next, or
    None where none waits. The word of a drop is the object's `word`, else its class's name. `entries` has the packets
    that wait in the order in which they were offered, whatever the order in which the object gives them."""

    def __init__(self, queue):
        self.queue = queue
        self.word = word_of(queue)
        self.waiting = {}           # of a packet's identity its entry
        self.dropped = []           # (word, packet) of the present call

    @property
    def entries(self):
        return self.waiting.values()

    def offer(self, packet, now):
        """What is dropped, in order: (word, packet)."""
        self.dropped = []
        self.waiting[id(packet)] = packet, now
        self.queue.offer(packet, now, self.drop)
        return self.dropped

    def take(self, now):
        """What is dropped, in order, and the packet given (or None)."""
        self.dropped = []
        packet = self.queue.take(now, self.drop)
        if packet is not None:
            self.leave(packet, 'gave')
        elif self.waiting:
            raise WrongQueue(f'{self.name()} gave no packet, and {len(self.waiting)} wait: a queue gives one as long as it has '
                             'any')
        return self.dropped, packet

    def drop(self, packet, word=None):
        word = self.word if word is None else word
        if not isinstance(word, str) or not WORD.fullmatch(word) or word == 'lost':
            raise WrongQueue(f'{self.name()} drops by the word {word!r}: it is a small letter and up to 14 small letters or '
                             'digits, and `lost` is the scenario\'s own')
        self.leave(packet, 'drops')
        self.dropped.append((word, packet))

    def leave(self, packet, does):
        if self.waiting.pop(id(packet), (None,))[0] is not packet:
            raise WrongQueue(f'{self.name()} {does} {packet!r}, which does not wait in it')

    def name(self):
        return type(self.queue).__name__

    def dump(self):
        return ''


def word_of(queue):
    """The word by which a queue of another's making drops."""
    return getattr(queue, 'word', re.sub('[^a-z0-9]', '', type(queue).__name__.lower())[:15])


def queue_of(link):
    if link.codel:
        return Codel(link.capacity, link.target, link.interval, link.maxpacket)
    return DropTail(link.capacity)
