"""The command tcpsim-net."""
from tcpsim.command_line import command

main = command('net', __name__)
