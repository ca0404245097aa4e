"""What the model's prompt tells of what is missing, by runs that were reckoned by hand."""
import os

import pytest

from clone import EXAMPLES, TOP
from tcpsim_model.text import assemble
from typed_lines import Session

# Two segments of 1,000 bytes over links of 8 Mbit/s, 1 ms each way: a packet takes 1.04 ms (data), 0.04 ms (acknowledgement).
TWO = b'''sim 10000000000
node s sender
node r receiver
link a s r 8000000 1000000 droptail 10
link b r s 8000000 1000000 droptail 10
flow f s r 1000 2 0 64000 0
'''


def told(session, *lines):
    """The last line of the last answer."""
    return session(*lines).splitlines()[-1]


def session_of(text):
    return Session(assemble(text))


@pytest.mark.parametrize('count, line', [
    # Both segments have left or wait, and none has arrived; then the first is there; then its acknowledgement and the second,
    # which arrive at one moment.
    (1, 'missing at the receiver: byte 0'), (3, 'missing at the receiver: byte 1000'), (6, 'missing at the receiver: byte 1000'),
    (7, 'missing at the sender: an acknowledgement above 1000')])
def test_nothing_was_dropped(count, line):
    assert told(session_of(TWO), f'step {count}', 'why f') == line


def test_an_acknowledgement_that_was_lost():
    """The second acknowledgement is lost, so that the second segment is sent again a second later."""
    session = session_of(TWO + b'lose b 2\n')
    assert told(session, 'break stall', 'run', 'why f').startswith('missing at the sender: an acknowledgement above 1000, ack 2000 lost by name at link b in line ')
    assert told(session, 'run', 'why f') == 'flow f is complete: all 2000 bytes are acknowledged'


def test_each_drop_of_a_byte():
    session = Session(os.path.join(EXAMPLES, 'two_timeouts_in_a_row.txt'))
    first = 'missing at the receiver: byte 4000, data 4000 lost by name at link a in line 6'
    assert told(session, 'goto 25', 'why f') == first
    assert told(session, 'goto 26', 'why f') == first + ', data 4000 lost by name at link a in line 26'
    # The segment 1000 arrives in line 7.
    assert told(session, 'goto 6', 'why f') == 'missing at the receiver: byte 1000'
    assert told(session, 'goto 0', 'why f') == 'alarms: start at 0 ns'


def test_a_queue_that_was_full():
    session = Session(os.path.join(TOP, 'docs', 'scenarios', 'six_flows_over_three_routers.txt'))
    assert told(session, 'break stall mail', 'run', 'why mail') == 'missing at the receiver: byte 2000, data 2000 dropped (full) at link bc in line 353'
