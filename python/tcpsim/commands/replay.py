"""The command tcpsim-replay."""
from tcpsim.command_line import command

main = command('replay', __name__)
