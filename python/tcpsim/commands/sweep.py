"""The command tcpsim-sweep."""
from tcpsim.command_line import command

main = command('sweep', __name__)
