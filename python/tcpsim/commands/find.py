"""The command tcpsim-find."""
from tcpsim.command_line import command

main = command('find', __name__)
