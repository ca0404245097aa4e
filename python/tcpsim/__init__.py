"""tcpsim: scenarios, runs of the program, its traces, figures, pictures and pages. docs/PYTHON.md shows its use.

What is public is in `api`, which is imported when it is first asked for, as the commands want little of it.
`__version__` is that of the whole: program, tools, packages. `FORMATS` has the number of each format, which rises when the
format changes; docs/FORMATS.md, "Versions", has what stays and what may be added.
"""
from __future__ import annotations

import importlib
from typing import TYPE_CHECKING

if TYPE_CHECKING:
    from tcpsim.api.difference import Difference
    from tcpsim.api.errors import Error, NoProgram, NotInstalled, Refused, Wrong, WrongQueue
    from tcpsim.api.events import Drop, Event, Sent, Trace
    from tcpsim.api.finds import Found, find
    from tcpsim.api.results import FlowResult, LinkResult, Results
    from tcpsim.api.scenarios import (ScenarioText, access_line, asymmetric, chain, dumbbell, from_text, islands, parking_lot,
                                      read, tree)
    from tcpsim.api.series import TimeSeries
    from tcpsim.api.session import DebugSession, debug
    from tcpsim.api.simulation import Simulation, run
    from tcpsim.api.sweeps import Sweep, sweep
    from tcpsim.api.times import FlowTime, TimePart

__version__ = '0.2.0'
FORMATS = {'trace': 1, 'image': 2, 'figures': 4, 'prompt': 14}
VERSIONS = f'{__version__} ({", ".join(f"{name} {number}" for name, number in FORMATS.items())})'   # of --version

# Of each public name the module of `api` that has it.
_MODULES = {
    'dumbbell': 'scenarios', 'chain': 'scenarios', 'parking_lot': 'scenarios', 'tree': 'scenarios', 'access_line': 'scenarios',
    'asymmetric': 'scenarios', 'islands': 'scenarios', 'read': 'scenarios', 'from_text': 'scenarios', 'ScenarioText': 'scenarios',
    'run': 'simulation', 'Simulation': 'simulation', 'debug': 'session', 'DebugSession': 'session', 'Event': 'events',
    'Sent': 'events', 'Drop': 'events', 'Trace': 'events', 'TimeSeries': 'series', 'Results': 'results', 'FlowResult': 'results',
    'LinkResult': 'results', 'Error': 'errors', 'Refused': 'errors', 'Wrong': 'errors', 'WrongQueue': 'errors',
    'NotInstalled': 'errors', 'NoProgram': 'errors', 'sweep': 'sweeps', 'Sweep': 'sweeps', 'find': 'finds', 'Found': 'finds',
    'FlowTime': 'times', 'TimePart': 'times', 'Difference': 'difference',
}
__all__ = ['__version__', 'dumbbell', 'chain', 'parking_lot', 'tree', 'access_line', 'asymmetric', 'islands', 'read', 'from_text',
           'ScenarioText', 'run', 'Simulation', 'debug', 'DebugSession', 'Event', 'Sent', 'Drop', 'Trace', 'TimeSeries', 'Results',
           'FlowResult', 'LinkResult', 'Error', 'Refused', 'Wrong', 'WrongQueue', 'NotInstalled', 'NoProgram', 'sweep', 'Sweep',
           'find', 'Found', 'FlowTime', 'TimePart', 'Difference']


def __getattr__(name: str) -> object:
    if name not in _MODULES:
        raise AttributeError(f'module {__name__!r} has no attribute {name!r}')
    return getattr(importlib.import_module(f'tcpsim.api.{_MODULES[name]}'), name)


def __dir__() -> list[str]:
    return sorted(__all__)
