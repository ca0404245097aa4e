"""The command tcpsim-time."""
from tcpsim.command_line import command

main = command('time', __name__)
