"""The row `aggregates`: six dumbbells of 16 flows in tcpsim and in ns-2."""
from validation.dumbbells import Dumbbell, of_ns2, of_tcpsim

TRIPS = 40, 60, 80, 100
# A window of about 1.25 times the flow's part of what the path holds, or open.
DUMBBELLS = [
    Dumbbell('Reno, 10 Mbit/s, queue 80, open windows', 16, 10_000_000, TRIPS, 80, False),
    Dumbbell('Reno, 10 Mbit/s, queue 80, windows of 12', 16, 10_000_000, TRIPS, 80, False, 12),
    Dumbbell('Reno, 40 Mbit/s, queue 160, windows of 40', 16, 40_000_000, TRIPS, 160, False, 40),
    Dumbbell('NewReno, 10 Mbit/s, queue 80, open windows', 16, 10_000_000, TRIPS, 80, True),
    Dumbbell('NewReno, 10 Mbit/s, queue 80, windows of 12', 16, 10_000_000, TRIPS, 80, True, 12),
    Dumbbell('NewReno, 40 Mbit/s, queue 160, windows of 40', 16, 40_000_000, TRIPS, 160, True, 40)]


def measure(program, ns2=True):
    """The figures of each dumbbell, in both."""
    return [{'name': each.name, 'tcpsim': of_tcpsim(each, program), **({'ns-2': of_ns2(each)} if ns2 else {})}
            for each in DUMBBELLS]
