"""An experiment as a test, that of docs/PYTHON.md. Usage: python3 -m pytest python/tests/test_delay.py."""
import clone  # noqa: F401  where the package is

import pytest

import tcpsim


def delay(flows, queue):
    """The 99th percentile of the delay in the queue, in ms."""
    net = tcpsim.dumbbell(flows=flows, rate="5M", rtt="40ms", queue=queue, end="20s")
    return tcpsim.run(net).figures.links["pq"].delay_p99_ns / 1e6


@pytest.mark.parametrize("flows", [1, 2, 4])
def test_codel_keeps_the_delay_short(flows):
    assert delay(flows, "codel:5ms:100ms") < delay(flows, "droptail:200") / 3
