"""Runs the model as a package, `python3 -m tcpsim_model`, or as a folder, `python3 python/tcpsim_model`."""
import os
import sys

if not __package__:
    sys.path[0] = os.path.dirname(os.path.dirname(os.path.abspath(__file__)))

from tcpsim_model.command_line import command  # noqa: E402

sys.exit(command())
