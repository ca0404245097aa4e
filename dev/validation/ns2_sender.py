"""ns-2's Reno and Newreno (version 2.35) as a sender of the independent model: its rules are switches, each of which can be
left as tcpsim has it.

Windows are segments, as ns-2 has them: cwnd real, ssthresh whole. With all switches off it sends what `Sender` does.
"""
from tcpsim_model.receiver import Receiver
from tcpsim_model.sender import LEAST_RTO, MOST_RTO, Sender

TICK = 1_000            # ns

# Of each switch: what ns-2 does in the place of docs/MODEL.md's row, the RFC's sentence, and who follows it.
SWITCHES = {
    'half of cwnd': (
        'at a loss ssthresh is half of min(cwnd, rwnd), not of what is in flight; after a recovery cwnd is that half',
        'RFC 5681, 3.1: ssthresh = max (FlightSize / 2, 2*SMSS); "An easy mistake to make is to simply use cwnd, rather than '
        'FlightSize"', 'tcpsim'),
    'the ACK that ends recovery opens cwnd': (
        'the acknowledgement that ends a recovery also adds 1/cwnd',
        'RFC 5681, 3.2 step 6: "a TCP MUST set cwnd to ssthresh"', 'tcpsim'),
    'cwnd is real': (
        'cwnd grows by 1/cwnd segments in doubles, not by whole bytes',
        'RFC 5681, 3.1, equation 3: cwnd += SMSS*SMSS/cwnd; "If the above formula yields 0, the result SHOULD be rounded up to 1 '
        'byte"', 'both'),
    'limited transmit below the highest sent': (
        'the first two duplicates send the next segment even if it was sent before a timeout',
        'RFC 5681, 3.2 step 1: "SHOULD send a segment of previously unsent data"', 'tcpsim'),
    'the first duplicate sends one': (
        'at the first duplicate cwnd + 1 segment may be in flight, at the second cwnd + 2',
        'RFC 5681, 3.2 step 1: "FlightSize would remain less than or equal to cwnd plus 2*SMSS"', 'both'),
    'a second timeout halves again': (
        'each timeout sets ssthresh anew, so that a second one leaves 2 segments',
        'RFC 5681, 3.1: if the timer resent the segment before, "the value of ssthresh is held constant"', 'tcpsim'),
    'the third duplicate restarts the timer': (
        'fast retransmit sets the timer anew',
        'RFC 6298, 5: (5.3) an acknowledgement of new data restarts the timer, a resending does not', 'tcpsim'),
    'the third duplicate sends new data': (
        'after fast retransmit new segments go if the inflated window has room; so do several at a later duplicate',
        'RFC 5681, 3.2 step 5: "send 1*SMSS bytes of previously unsent data" for each additional duplicate', 'tcpsim'),
    'new data below the highest sent': (
        'in a recovery after a timeout segments that were sent before go again',
        'RFC 5681, 3.2 step 5: "previously unsent data"', 'tcpsim'),
    'a resending leaves the timing': (
        'a partial acknowledgement\'s resending does not end the timing of a segment',
        'RFC 6298, 3 (Karn): "RTT samples MUST NOT be made using segments that were retransmitted"', 'both'),
    'no recovery, but the window': (
        'Newreno: a third duplicate that begins no recovery, and later ones, send as many segments as the window has room for',
        'RFC 6582, 3.2 step 2: "the TCP does not enter fast retransmit and does not reset ssthresh"', 'both'),
    'deflated at the exit': (
        'Newreno: partial acknowledgements take from cwnd what they do not find as duplicates, and so much is missing at the exit',
        'RFC 6582, 3.2 step 3: a full acknowledgement sets cwnd to ssthresh, or to min (ssthresh, max(FlightSize, SMSS) + SMSS)',
        'tcpsim'),
    'segment 0 waits for the timer': (
        'Newreno: recover begins as segment 0, so that a loss of segment 0 has no fast retransmit; at segment 1 one is always allowed',
        'RFC 6582, 3.2: recover begins as the initial send sequence number', 'both'),
    'round trips in ticks of 16 bits': (
        'round trips are whole ticks, here of 1 us. The difference of two is kept in 16 bits, and four timeouts in a row clear the '
        'mean',
        'RFC 6298, 2: SRTT and RTTVAR of the measured R, with a clock granularity G; 5: an implementation MAY clear both', 'tcpsim'),
    'an acknowledgement before the link that becomes free': (
        'at one moment an acknowledgement is first, and its segments may find the queue full; as moments are doubles, it is '
        'not always so', 'no rule of an RFC', '-'),
    'segment 0 has no header': (
        'the packet of segment 0 is 40 bytes smaller without a SYN', 'no rule of an RFC', '-'),
    'an acknowledgement where all is acknowledged': (
        'a duplicate counts even if nothing is in flight',
        'RFC 5681, 2: an acknowledgement is a duplicate if "the receiver of the ACK has outstanding data"', 'tcpsim'),
    'a copy of the last segment is acknowledged late': (
        'a delayed acknowledgement also waits if the last segment in order arrives again',
        'RFC 5681, 4.2: "Out-of-order data segments SHOULD be acknowledged immediately"', 'both'),
}
ALL, TIE = frozenset(SWITCHES), 'an acknowledgement before the link that becomes free'


def of_16_bits(number):
    """A number as C's short keeps it."""
    return (number + 2**15) % 2**16 - 2**15


class Ns2Sender(Sender):
    """A sender with some of ns-2's rules. `w` is cwnd in segments, `more` what duplicates add to it (ns-2's dupwnd_)."""
    __slots__ = ('on', 'w', 'more', 'backoff', 'srtt8', 'rttvar4')

    def __init__(self, mss, segments, rwnd, newreno, iw10, on):
        super().__init__(mss, segments, rwnd, newreno, iw10)
        self.on = on
        self.w, self.more = float(self.cwnd // mss), 0
        self.ssthresh = rwnd // mss
        self.backoff, self.srtt8, self.rttvar4 = 1, 0, 0        # ticks, as ns-2 keeps them: 8 times and 4 times

    # Windows, in segments.

    def most(self):
        return self.rwnd // self.mss

    def window(self):
        return min(int(self.w) + self.more, self.most())

    def half(self):
        """What a loss leaves: cwnd after the recovery (real), and ssthresh (whole)."""
        if 'half of cwnd' in self.on:
            real = min(self.w + self.more, self.most()) / 2
            return real, max(int(real), 2)
        whole = max((self.nxt - self.una - self.lt) // 2, 2 * self.mss) / self.mss
        return whole, whole

    def open(self):
        if self.w < self.ssthresh:
            self.w += 1
        elif 'cwnd is real' in self.on:
            self.w += 1 / self.w
        else:
            whole = round(self.w * self.mss)
            self.w = (whole + max(self.mss * self.mss // whole, 1)) / self.mss

    def may_send(self, window):
        return self.nxt + self.mss <= self.una + window * self.mss and self.nxt < self.total

    def fill(self, now, most=None):
        sent: list[int] = []
        while self.may_send(self.window()) and (most is None or len(sent) < most):
            sent.append(self.send_next(now))
        return sent

    # The timer.

    def advance(self, ack, now):
        if 'round trips in ticks of 16 bits' not in self.on:
            return super().advance(ack, now)
        if self.timing is not None and ack >= self.timing[0]:
            self.sample((now - self.timing[1]) // TICK)
            self.timing = None
        newly, self.una = ack - self.una, ack
        self.nxt = max(self.nxt, ack)
        return newly

    def sample(self, trip):
        trip, self.backoff = max(trip, 1), 1
        if self.srtt8:
            delta = of_16_bits(trip - (self.srtt8 >> 3))
            self.srtt8 = max(self.srtt8 + delta, 1)
            self.rttvar4 = max(self.rttvar4 + of_16_bits(abs(delta) - (self.rttvar4 >> 2)), 1)
        else:
            self.srtt8, self.rttvar4 = trip << 3, trip << 1
        self.rto = min(max(((self.rttvar4 << 3) + self.srtt8 >> 3) * TICK, LEAST_RTO), MOST_RTO)

    def back_off(self):
        self.rto = min(2 * self.rto, MOST_RTO)
        self.backoff *= 2
        if self.backoff > 8:
            self.rttvar4 += self.srtt8 >> 3
            self.srtt8 = 0

    # Rows.

    def on_ack(self, ack, now):
        if ack > self.una:
            if self.newreno and self.recovery and ack < self.recover:
                return self.on_partial_ack(ack, now)
            return self.on_new_ack(ack, now)
        if ack < self.una or (self.una == self.nxt and 'an acknowledgement where all is acknowledged' not in self.on):
            return []
        self.dups += 1
        if self.dups < 3:
            return self.on_early_duplicate(now)
        if self.dups == 3:
            if self.enters_recovery():
                return self.on_third_duplicate(now)
        elif self.recovery:
            self.more += 1
        if self.recovery:
            return self.after_duplicate(now)
        if self.newreno and 'no recovery, but the window' in self.on:
            return self.fill(now, 2)
        return []

    def enters_recovery(self):
        if not self.newreno:
            return True
        if 'segment 0 waits for the timer' in self.on:
            if self.una == self.mss:
                return True
            return self.una > (self.mss if self.recover is None else self.recover)
        return super().enters_recovery()

    def on_early_duplicate(self, now):
        room = self.w + (self.dups if 'the first duplicate sends one' in self.on else 2)
        if 'limited transmit below the highest sent' not in self.on and self.nxt != self.high:
            return []
        if self.may_send(min(int(room), self.most())):
            self.lt += self.mss
            return [self.send_next(now)]
        return []

    def on_third_duplicate(self, now):
        real, whole = self.half()
        self.ssthresh, self.w = whole, real
        self.recover, self.partial, self.recovery = self.high, False, True
        if 'the third duplicate restarts the timer' in self.on:
            self.deadline = now + self.rto
        sent = [self.send(self.una, now)]
        self.more = 3
        if 'the third duplicate sends new data' in self.on:
            return sent + self.after_duplicate(now)
        return sent

    def after_duplicate(self, now):
        if 'new data below the highest sent' not in self.on and self.nxt != self.high:
            return []
        several = 2 if self.newreno else None
        return self.fill(now, several if 'the third duplicate sends new data' in self.on else 1)

    def on_partial_ack(self, ack, now):
        timing = self.timing
        newly = self.advance(ack, now) // self.mss
        if self.more > newly:
            self.more -= newly - 1
        else:
            self.w = max(self.w - (newly - self.more), 1)
            self.more = 1
        self.lt, self.resent = 0, False
        if not self.partial:
            self.deadline, self.partial = now + self.rto, True
        sent = [self.send(self.una, now)]
        if 'a resending leaves the timing' in self.on and timing is not None and timing[0] > ack:
            self.timing = timing
        return sent + self.after_duplicate(now)

    def on_new_ack(self, ack, now):
        self.advance(ack, now)
        if self.recovery:
            self.recovery, self.more = False, 0
            if 'deflated at the exit' not in self.on:
                self.w = self.ssthresh
            if 'the ACK that ends recovery opens cwnd' in self.on:
                self.open()
        else:
            self.open()
        self.dups = self.lt = 0
        self.resent = False
        self.deadline = None if self.una == self.nxt else now + self.rto
        return self.fill(now)

    def on_rto(self, now):
        self.more = 0
        if not self.resent or 'a second timeout halves again' in self.on:
            self.ssthresh = self.half()[1]
        self.w = 1.0
        self.back_off()
        self.recovery, self.resent = False, True
        self.dups = self.lt = 0
        sent = [self.send(self.una, now)]
        self.timing = None
        self.nxt = self.una + self.mss
        self.deadline = now + self.rto
        self.recover = self.high
        return sent


class Ns2Receiver(Receiver):
    """A receiver whose delayed acknowledgement also waits where the last segment in order comes again."""
    __slots__ = ()

    def on_data(self, seq, now):
        if seq == self.next - self.mss and not self.held and self.delack > 0 and self.timer is None:
            self.timer = now + self.delack
            return None
        return super().on_data(seq, now)
