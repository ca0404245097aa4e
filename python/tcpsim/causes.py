"""Why a flow stood still: each cause is one function, its docstring the rule in words.

A function is given a `Stall` (stalls.py) at its end and answers None, or a `Found`: the reason in words
and the lines of the trace that show it. The cause of a stall is the first of `CAUSES` that holds. From
the third on exactly one of them holds of a stall, whatever their order.
"""
from __future__ import annotations

from collections import namedtuple
from collections.abc import Callable
from typing import TYPE_CHECKING

from tcpsim.traces.lives import CAME, PARTIAL, THIRD_DUPLICATE, Packet

if TYPE_CHECKING:
    from tcpsim.stalls import Stall
    Cause = Callable[[Stall], 'Found | None']

Found = namedtuple('Found', 'words lines')


# ---- words

def seconds(time: int) -> str:
    """A time in the greatest unit in which it is at least one."""
    for unit, size in (('s', 10**9), ('ms', 10**6), ('us', 10**3)):
        if time >= size:
            return f'{time / size:.6g} {unit}'
    return f'{time} ns'


def counted(count: int, noun: str) -> str:
    """A count with its noun, as 2 duplicates."""
    return f'{count} {noun}' if count == 1 else f'{count} {noun}s'


# ---- what is true of a stall

def is_dropped(packet: Packet) -> bool:
    """Whether a packet was dropped."""
    return packet.fate not in (None, CAME)


def is_lost(stall: Stall) -> bool:
    """Whether every copy of the segment at una that was sent up to the span's beginning was dropped."""
    return all(map(is_dropped, stall.copies))


def is_left_to_the_timer(stall: Stall) -> bool:
    """Whether the segment at una was lost, and neither a third duplicate nor a partial acknowledgement was
    the first to send it again."""
    return is_lost(stall) and not (stall.resent and stall.resent[0].why in (THIRD_DUPLICATE, PARTIAL))


def matters(stall: Stall, added: int) -> bool:
    """Whether a time that is added to a span is more than its half, or all that makes it too long."""
    return 2 * added > stall.length or stall.length - added <= stall.longer


def lost_acknowledgement(stall: Stall) -> Packet | None:
    """The first acknowledgement above una that was dropped, where the span would have ended by it; else None."""
    lost = min((ack for ack in stall.acks_dropped if ack.number > stall.una), key=lambda ack: ack.line, default=None)
    if lost is None:
        return None
    instead = stall.end if stall.ack is None else stall.ack.offered
    return lost if matters(stall, instead - lost.offered) else None


def is_lost_again(stall: Stall) -> bool:
    """Whether the span is due to a retransmission that was dropped."""
    return not is_left_to_the_timer(stall) and any(map(is_dropped, stall.resent)) and \
        (is_lost(stall) or lost_acknowledgement(stall) is not None)


def has_lost_acknowledgement(stall: Stall) -> bool:
    """Whether the span is due to an acknowledgement that was dropped."""
    return not is_left_to_the_timer(stall) and not is_lost_again(stall) and lost_acknowledgement(stall) is not None


def doubled_timers(stall: Stall) -> list[tuple[int | None, int]]:
    """The timers of the span that had been doubled: (line or None where it is still awaited, ns)."""
    ended = [(timer.line, timer.value) for timer in stall.timers if timer.doubled]
    return ended + ([(None, stall.rto)] if stall.ack is None and stall.doubled else [])


def is_unharmed(stall: Stall) -> bool:
    """Whether neither the segment at una nor an acknowledgement whose loss matters was lost."""
    return not is_lost(stall) and not is_lost_again(stall) and lost_acknowledgement(stall) is None


def delay_of_the_answer(stall: Stall) -> int:
    """How long the acknowledgement that ended the span waited before it was sent, or waits at the run's end."""
    if stall.ack is None:
        return 0 if stall.waits_since is None else stall.end - stall.waits_since
    return 0 if stall.ack.since is None else stall.ack.offered - stall.ack.since


def is_delayed(stall: Stall) -> bool:
    """Whether the wait of the receiver's answer made the span too long, or more than half of it."""
    delay = delay_of_the_answer(stall)
    return delay > 0 and matters(stall, delay)


def why_so_few(stall: Stall) -> tuple[str, list[int]]:
    """Why fewer than three duplicates came: segments behind the lost one, and what became of them. Or why
    three began nothing."""
    if stall.duplicates >= 3:
        return f'none begins a recovery up to {stall.recover}, as far as was sent when the last loss was noticed', []
    until = stall.resent[0].offered if stall.resent else stall.end
    behind = [packet for packet in stall.behind() if packet.offered <= until]
    lost = [packet for packet in behind if is_dropped(packet)]
    if len(behind) < 3:
        return f'too few were behind it ({counted(len(behind), "segment")})', []
    if len(behind) - len(lost) < 3:
        return f'{len(lost)} of {len(behind)} segments behind it were lost too', [lost[0].ended_line]
    answers = [ack for ack in stall.acks_dropped if ack.number == stall.una < ack.of.number and ack.ended <= until]
    if answers:
        return f'answers to those behind it were lost ({len(answers)})', [answers[0].ended_line]
    return f'those of the {len(behind)} segments behind it were still under way', []


def words_of_timers(stall: Stall) -> str:
    """What is said of the timers that ended."""
    if not stall.timers:
        return ''
    return f'; the timer ended after {" and ".join(seconds(timer.value) for timer in stall.timers)}'


# ---- the causes, in the order in which they are asked

def the_receive_window_was_full(stall: Stall) -> Found | None:
    """Neither the segment at una nor an acknowledgement whose loss matters was lost, and all through the span
    not all bytes were sent, and a segment more would have gone past the receiver's window
    (nxt + mss > una + rwnd)."""
    if not stall.full or not is_unharmed(stall):
        return None
    return Found(f'{stall.nxt - stall.una} of {stall.flow.flow.rwnd} bytes were on their way, and '
                 f'{stall.flow.total - stall.nxt} not yet sent', [])


def its_packets_waited_in_one_queue(stall: Stall) -> Found | None:
    """For more than half of the span all packets of the flow that were in the net were at one link:
    in its queue, save at most one that the link was sending, and at least one in the queue."""
    for port, (time, _, line) in stall.queued.items():
        if 2 * time > stall.length:
            words = f'all its packets waited at link {port.link.name} for {seconds(time)} of it'
            if not is_lost(stall):
                return Found(words, [line])
            lost = stall.copies[-1]
            return Found(f'{words}; segment {stall.una} was dropped ({lost.fate}) besides', [lost.ended_line, line])
    return None


def a_loss_was_left_to_the_timer(stall: Stall) -> Found | None:
    """Every copy of the segment at una that was sent up to the span's beginning was dropped, and fewer
    than three duplicates came before the timer ended (or before the run did), or three came to a NewReno
    sender that had no more acknowledged than was sent when it last noticed a loss."""
    if not is_left_to_the_timer(stall):
        return None
    lost = stall.copies[-1]
    why, lines = why_so_few(stall)
    again = [packet for packet in stall.resent if is_dropped(packet)]
    words = f'segment {stall.una} was dropped ({lost.fate}) and {counted(stall.duplicates, "duplicate")} came: {why}'
    if again:
        words += f'; sent again, it was dropped {counted(len(again), "time")}'
    return Found(words + words_of_timers(stall), [lost.ended_line, *lines, *(timer.line for timer in stall.timers)])


def a_retransmission_was_lost(stall: Stall) -> Found | None:
    """What was sent again in the span was dropped: of a segment that the third duplicate or a partial
    acknowledgement sent again, or of one whose acknowledgement was lost."""
    if not is_lost_again(stall):
        return None
    again = [packet for packet in stall.resent if is_dropped(packet)]
    words = f'segment {stall.una}, sent again ({again[0].why}), was dropped ({again[0].fate})'
    if len(again) > 1:
        words += f', and {counted(len(again) - 1, "time")} more'
    return Found(words + words_of_timers(stall), [*(packet.ended_line for packet in again), *(timer.line for timer in stall.timers)])


def the_timer_had_doubled(stall: Stall) -> Found | None:
    """The segment at una came, its acknowledgement was dropped, and the timer that was then waited for
    had been doubled and not measured since; nothing sent again was dropped."""
    timers, ack = doubled_timers(stall), lost_acknowledgement(stall)
    if ack is None or not has_lost_acknowledgement(stall) or not timers:
        return None
    return Found(f'acknowledgement {ack.number} was dropped ({ack.fate}), and the timer had doubled to '
                 f'{seconds(max(value for _, value in timers))}',
                 [ack.ended_line, *(line for line, _ in timers if line is not None)])


def an_acknowledgement_was_lost(stall: Stall) -> Found | None:
    """The segment at una came, but an acknowledgement of it was dropped, and without that the span would
    have been half as long or short enough; no timer that ended in it had been doubled."""
    ack = lost_acknowledgement(stall)
    if ack is None or not has_lost_acknowledgement(stall) or doubled_timers(stall):
        return None
    words = f'acknowledgement {ack.number} was dropped ({ack.fate})'
    if stall.timers:
        words += f', and the timer ended after {seconds(stall.timers[0].value)}'
    elif stall.ack is not None:
        words += f', and the next that came was {stall.ack.number}'
    return Found(words, [ack.ended_line, *(timer.line for timer in stall.timers)])


def a_delayed_acknowledgement_was_waited_for(stall: Stall) -> Found | None:
    """Nothing was lost, and the receiver's answer waited for its timer or for another segment; without
    this wait the span would have been half as long or short enough."""
    if not is_unharmed(stall) or not is_delayed(stall):
        return None
    delay = seconds(delay_of_the_answer(stall))
    if stall.ack is None:
        return Found(f'the answer to segment {stall.una} waited for {delay} when the run ended', [])
    return Found(f'acknowledgement {stall.ack.number} was sent {stall.ack.why} after a wait of {delay}', [stall.ack.line])


def fast_retransmit_took_a_round_trip(stall: Stall) -> Found | None:
    """The segment at una was lost, the third duplicate or a partial acknowledgement sent it again, and that
    was neither lost nor was its acknowledgement: the span is the time to the third duplicate (none where it
    began with the partial acknowledgement) and a round trip more."""
    if not is_lost(stall) or is_left_to_the_timer(stall) or is_lost_again(stall) or \
            lost_acknowledgement(stall) is not None:
        return None
    lost, again = stall.copies[-1], stall.resent[0]
    came = 'a partial acknowledgement sent it again at once' if again.why is PARTIAL else \
        f'the third duplicate came after {seconds(again.offered - stall.begin)}'
    return Found(f'segment {stall.una} was dropped ({lost.fate}); {came}, and {seconds(stall.end - again.offered)} '
                 'went by after it', [lost.ended_line, again.line])


def the_round_trip_took_longer(stall: Stall) -> Found | None:
    """Nothing was lost and no delayed answer made it too long: the round trip, with the waits in all queues
    on it, takes longer than that."""
    if not is_unharmed(stall) or is_delayed(stall):
        return None
    segment = stall.copies[-1] if stall.ack is None else stall.ack.of
    return Found(f'from segment {segment.number} to its acknowledgement it takes '
                 f'{seconds(stall.end - segment.offered)}' + ('' if stall.ack else ' at least'), [segment.line])


CAUSES = (the_receive_window_was_full, its_packets_waited_in_one_queue, a_loss_was_left_to_the_timer,
          a_retransmission_was_lost, the_timer_had_doubled, an_acknowledgement_was_lost,
          a_delayed_acknowledgement_was_waited_for, fast_retransmit_took_a_round_trip, the_round_trip_took_longer)
PARTITION = CAUSES[2:]      # of these exactly one holds of each stall


def name_of(cause: Cause) -> str:
    """A cause in a few words."""
    return cause.__name__.replace('_', ' ')


def rule_of(cause: Cause) -> str:
    """The rule of a cause, in words."""
    return ' '.join((cause.__doc__ or '').split())


def cause_of(stall: Stall) -> tuple[Cause, Found]:
    """The first cause that holds, and what it found."""
    return next((cause, found) for cause in CAUSES if (found := cause(stall)) is not None)
