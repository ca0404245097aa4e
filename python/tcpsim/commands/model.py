"""The command tcpsim-model: the model in the program's place."""
import sys

from tcpsim import VERSIONS
from tcpsim.command_line import say
from tcpsim_model import command_line


def main() -> int:
    """Answers the status."""
    if sys.argv[1:] == ['--version']:
        return say(f'tcpsim-model {VERSIONS}\n')
    if sys.argv[1:] in (['--help'], ['-h']):
        return say(f'{command_line.__doc__.strip()}\n  --version    the version of the tools, and those of the formats\n')
    return command_line.command()


if __name__ == '__main__':
    sys.exit(main())
