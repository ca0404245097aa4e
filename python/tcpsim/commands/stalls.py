"""The command tcpsim-stalls."""
from tcpsim.command_line import command

main = command('stalls', __name__)
