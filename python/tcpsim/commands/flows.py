"""The command tcpsim-flows."""
from tcpsim.command_line import command

main = command('flows', __name__)
