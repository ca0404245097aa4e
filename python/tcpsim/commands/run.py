"""The command tcpsim-run."""
from tcpsim.command_line import command

main = command('run', __name__)
