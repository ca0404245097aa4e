"""`python3 -m tcpsim SUBCOMMAND ..` does what tcpsim-SUBCOMMAND does; so does `python3 -m tcpsim.commands.SUBCOMMAND ..`."""
import importlib
import os
import pkgutil
import sys

from tcpsim import VERSIONS, commands
from tcpsim.command_line import refuse, say

NAMES = [module.name for module in pkgutil.iter_modules(commands.__path__)]
USAGE = f'usage: python3 -m tcpsim SUBCOMMAND .., as tcpsim-SUBCOMMAND; SUBCOMMAND is {", ".join(NAMES)}'


def main() -> int:
    """Answers the status."""
    name, words = (sys.argv[1:] or ['--help'])[0], sys.argv[2:]
    if name in ('-h', '--help'):
        return say(f'{USAGE}\n')
    if name == '--version':
        return say(f'tcpsim {VERSIONS}\n')
    if name not in NAMES:
        sys.argv[0] = 'tcpsim'
        return refuse(f'{name!r} is no subcommand: {USAGE}', 2)
    sys.argv[:] = [os.path.join(commands.__path__[0], f'{name}.py'), *words]
    return importlib.import_module(f'tcpsim.commands.{name}').main()


if __name__ == '__main__':
    sys.exit(main())
