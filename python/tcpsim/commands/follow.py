"""The command tcpsim-follow."""
from tcpsim.command_line import command

main = command('follow', __name__)
