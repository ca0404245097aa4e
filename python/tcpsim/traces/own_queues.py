"""What a queue that is a class of Python's (docs/PYTHON.md) does, as a trace tells it: it can drop any packet that is offered
or waits, by words of its own, and give its packets in any order. Of packets of one name the first is taken.
"""
from __future__ import annotations

from abc import ABC, abstractmethod
from collections import deque
from typing import TYPE_CHECKING

if TYPE_CHECKING:
    from tcpsim.traces.reader import LinkState, Stream

LOST = 'lost'           # what a scenario's `lose` drops, and no queue


def dropped_by(act: str) -> tuple[str, str] | None:
    """The word and the packet of an act that is a queue's drop; else None."""
    if not act.startswith('drop='):
        return None
    word, packet = act[5:].split(':', 1)
    return None if word == LOST else (word, packet)


def place_of(waiting: deque[tuple[str, Stream, int]], text: str) -> int | None:
    """The place of the first packet of this text among those that wait."""
    return next((place for place, packet in enumerate(waiting) if packet[0] == text), None)


class OwnQueues(ABC):
    """The part of `trace.Reader` that reads such queues."""

    @staticmethod
    @abstractmethod
    def _begin(link: LinkState, text: str, stream: Stream, time: int, entered: int) -> None:
        """The link begins to send a packet."""

    @abstractmethod
    def _drop(self, link: LinkState, text: str, stream: Stream, reason: str, time: int) -> None:
        """A packet is dropped."""

    def _offer_own(self, link: LinkState, text: str, stream: Stream, words: list[str], at: int, time: int) -> int:
        """To a class of Python's, which can drop this packet or others. What an idle link sends at once has not waited."""
        link.waiting.append((text, stream, time))
        link.waited -= time
        at = self._drop_own(link, words, at, time)
        if not link.busy and link.waiting:
            return self._take_own(link, words, at, time)
        link.greatest = max(link.greatest, len(link.waiting))
        return at

    def _drop_own(self, link: LinkState, words: list[str], at: int, time: int) -> int:
        """The drops of packets that wait."""
        while at < len(words) and (found := dropped_by(words[at])):
            reason, text = found
            place = place_of(link.waiting, text)
            if place is None:
                break
            stream = link.waiting[place][1]
            del link.waiting[place]
            link.waited += time
            self._drop(link, text, stream, reason, time)
            at += 1
        return at

    def _take_own(self, link: LinkState, words: list[str], at: int, time: int) -> int:
        """What a class of Python's drops and gives."""
        at = self._drop_own(link, words, at, time)
        if not link.waiting:
            return at
        act = words[at]
        place = place_of(link.waiting, act[len(link.sends):]) if act.startswith(link.sends) else None
        if place is None:
            raise ValueError('a packet is sent that does not wait')
        text, stream, entered = link.waiting[place]
        del link.waiting[place]
        link.waited += time
        self._begin(link, text, stream, time, entered)
        return at + 1
