"""The receiver with delayed acknowledgements (RFC 5681 section 4.2)."""


class Receiver:
    __slots__ = ('mss', 'delack', 'next', 'held', 'timer')

    def __init__(self, mss, delack):
        self.mss, self.delack = mss, delack
        self.next = 0           # the least multiple of mss that wasn't received
        self.held = set()       # the numbers received above it
        self.timer = None       # when a delayed acknowledgement is due

    def on_data(self, seq, now):
        """The number to acknowledge at once, or None where the answer waits until `timer`."""
        if seq == self.next:
            self.next += self.mss
            if not self.held and self.delack > 0 and self.timer is None:
                self.timer = now + self.delack
                return None
            while self.next in self.held:
                self.held.remove(self.next)
                self.next += self.mss
        elif seq > self.next:
            self.held.add(seq)
        self.timer = None
        return self.next

    def on_delack(self):
        self.timer = None
        return self.next

    def after(self):
        return f' next={self.next}'

    def dump(self):
        return f'next={self.next} held={",".join(map(str, sorted(self.held))) or "-"}'
