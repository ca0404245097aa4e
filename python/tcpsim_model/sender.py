"""The Reno sender (RFC 5681), NewReno (RFC 6582) and the timer (RFC 6298): one method for each row of
the table."""

SECOND = 10**9
LEAST_RTO, MOST_RTO = SECOND, 60 * SECOND
CWND_STOPS, DUPS_STOPS = 2**40, 4_294_967_295


def initial_window(mss, iw10=False):
    """RFC 5681 section 3.1; with `iw10` RFC 6928 section 2."""
    if iw10:
        return min(10 * mss, max(2 * mss, 14_600))
    return mss * (2 if mss > 2190 else 3 if mss > 1095 else 4)


def after_sample(srtt, rttvar, r):
    """RFC 6298 section 2: srtt, rttvar and rto after a measured round trip; srtt is None before
    the first."""
    if srtt is None:
        srtt, rttvar = r, r // 2
    else:
        rttvar = (3 * rttvar + abs(srtt - r)) // 4
        srtt = (7 * srtt + r) // 8
    return srtt, rttvar, min(max(srtt + max(1, 4 * rttvar), LEAST_RTO), MOST_RTO)


class Sender:
    """Each row answers the byte numbers that it sends, in order."""
    __slots__ = ('mss', 'total', 'rwnd', 'una', 'nxt', 'high', 'cwnd', 'ssthresh', 'dups', 'lt', 'recovery',
                 'timing', 'srtt', 'rttvar', 'rto', 'deadline', 'resent', 'newreno', 'recover', 'partial')

    def __init__(self, mss, segments, rwnd, newreno=False, iw10=False):
        self.mss, self.total, self.rwnd, self.newreno = mss, mss * segments, rwnd, newreno
        self.una = self.nxt = self.high = 0         # bytes
        self.cwnd, self.ssthresh = initial_window(mss, iw10), rwnd      # bytes
        self.dups = self.lt = 0                     # lt: bytes sent by limited transmit
        self.recovery = self.resent = False         # resent: by the timer, the segment at una
        self.timing = None                          # (acknowledgement number, time sent)
        self.srtt, self.rttvar, self.rto = None, 0, SECOND      # ns
        self.deadline = None                        # of the timer; None where it is off
        self.recover = None                         # NewReno: high at the last loss, bytes; None before the first
        self.partial = False                        # NewReno: this recovery had a partial acknowledgement

    def send(self, x, now):
        if self.deadline is None:
            self.deadline = now + self.rto
        if x < self.high:
            self.timing = None
        else:
            self.high = x + self.mss
            if self.timing is None:
                self.timing = (self.high, now)
        return x

    def send_next(self, now):
        self.nxt += self.mss
        return self.send(self.nxt - self.mss, now)

    def fill(self, now):
        sent = []
        window = self.una + min(self.cwnd, self.rwnd)
        while self.nxt + self.mss <= window and self.nxt < self.total:
            sent.append(self.send_next(now))
        return sent

    def flight_size(self):
        return self.nxt - self.una

    def widen(self, more):
        self.cwnd = min(self.cwnd + more, CWND_STOPS)

    def on_start(self, now):
        return self.fill(now)

    def on_ack(self, ack, now):
        if ack > self.una:
            if self.newreno and self.recovery and ack < self.recover:
                return self.on_partial_ack(ack, now)
            return self.on_new_ack(ack, now)
        if ack < self.una or self.una == self.nxt:
            return []
        if self.recovery:
            return self.on_further_duplicate(now)
        if self.dups < 2:
            return self.on_early_duplicate(now)
        if self.dups == 2 and self.enters_recovery():
            return self.on_third_duplicate(now)
        self.dups = min(self.dups + 1, DUPS_STOPS)
        return []

    def enters_recovery(self):
        """NewReno enters none where una has not come past recover (RFC 6582 section 3.2 step 2)."""
        return not self.newreno or self.recover is None or self.una > self.recover

    def on_early_duplicate(self, now):
        """Limited transmit (RFC 5681 section 3.2 step 1)."""
        self.dups += 1
        if (self.nxt == self.high and self.nxt < self.total
                and self.flight_size() + self.mss <= self.cwnd + 2 * self.mss
                and self.nxt + self.mss <= self.una + self.rwnd):
            self.lt += self.mss
            return [self.send_next(now)]
        return []

    def on_third_duplicate(self, now):
        """Fast retransmit (steps 2 and 3)."""
        self.dups = 3
        self.ssthresh = max((self.flight_size() - self.lt) // 2, 2 * self.mss)
        sent = [self.send(self.una, now)]
        self.cwnd = min(self.ssthresh + 3 * self.mss, CWND_STOPS)
        self.recovery = True
        if self.newreno:
            self.recover, self.partial = self.high, False
        return sent

    def on_further_duplicate(self, now):
        """Fast recovery (steps 4 and 5)."""
        self.dups = min(self.dups + 1, DUPS_STOPS)
        self.widen(self.mss)
        return self.send_one(now)

    def send_one(self, now):
        """The next segment, where the window has room for it and nothing is to be sent again first."""
        if (self.nxt == self.high and self.nxt < self.total
                and self.nxt + self.mss <= self.una + min(self.cwnd, self.rwnd)):
            return [self.send_next(now)]
        return []

    def advance(self, ack, now):
        """Measures where the timed segment is acknowledged, and moves una; answers how many bytes are
        newly acknowledged."""
        if self.timing is not None and ack >= self.timing[0]:
            self.srtt, self.rttvar, self.rto = after_sample(self.srtt, self.rttvar, now - self.timing[1])
            self.timing = None
        newly = ack - self.una
        self.una = ack
        self.nxt = max(self.nxt, ack)
        return newly

    def on_partial_ack(self, ack, now):
        """A partial acknowledgement (RFC 6582 section 3.2 step 3): the window is deflated, the next hole
        is sent again, and the recovery goes on. The first one sets the timer anew."""
        newly = self.advance(ack, now)
        self.cwnd = max(self.cwnd - newly + self.mss, self.mss)
        self.lt = 0
        self.resent = False
        if not self.partial:
            self.deadline = now + self.rto
            self.partial = True
        return [self.send(self.una, now)] + self.send_one(now)

    def on_new_ack(self, ack, now):
        newly = self.advance(ack, now)
        if self.recovery:
            self.cwnd = self.ssthresh
            self.recovery = False
        elif self.cwnd < self.ssthresh:
            self.widen(min(newly, self.mss))
        else:
            self.widen(max(self.mss * self.mss // self.cwnd, 1))
        self.dups = self.lt = 0
        self.resent = False
        self.deadline = None if self.una == self.nxt else now + self.rto
        return self.fill(now)

    def on_rto(self, now):
        """RFC 6298 section 5, RFC 5681 section 3.1."""
        if not self.resent:
            self.ssthresh = max(self.flight_size() // 2, 2 * self.mss)
        self.cwnd = self.mss
        self.rto = min(2 * self.rto, MOST_RTO)
        self.recovery = False
        self.dups = self.lt = 0
        self.resent = True
        sent = [self.send(self.una, now)]
        self.timing = None
        self.nxt = self.una + self.mss
        self.deadline = now + self.rto
        if self.newreno:
            self.recover = self.high
        return sent

    def phase(self):
        if self.recovery:
            return 'fr'
        return 'ss' if self.cwnd < self.ssthresh else 'ca'

    def after(self):
        return (f' una={self.una} nxt={self.nxt} cwnd={self.cwnd} ssthresh={self.ssthresh}'
                f' phase={self.phase()}')

    def dump(self):
        timing = '-' if self.timing is None else f'{self.timing[0]}@{self.timing[1]}'
        srtt = '-' if self.srtt is None else self.srtt
        return (f'una={self.una} nxt={self.nxt} high={self.high} cwnd={self.cwnd} ssthresh={self.ssthresh}'
                f' dups={self.dups} lt={self.lt} fr={int(self.recovery)} timing={timing} srtt={srtt}'
                f' rttvar={self.rttvar} rto={self.rto} resent={int(self.resent)}')
