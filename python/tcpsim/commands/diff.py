"""The command tcpsim-diff."""
from tcpsim.command_line import command

main = command('diff', __name__)
