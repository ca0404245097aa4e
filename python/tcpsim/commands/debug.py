"""The command tcpsim-debug."""
from tcpsim.command_line import command

main = command('debug', __name__)
