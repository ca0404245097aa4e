"""The command tcpsim-plot."""
import sys

from tcpsim.command_line import go_on_with, refuse, run


def main() -> int:
    """Draws what the words ask for, by Debian's python3 where this one has no matplotlib; answers the status, 1 where neither
    has it."""
    try:
        return run('tcpsim.cli.plot')
    except ImportError as wrong:
        if (wrong.name or 'matplotlib').partition('.')[0] not in ('matplotlib', 'numpy'):
            raise
        go_on_with('matplotlib')
        return refuse('matplotlib is not there: apt-get install python3-matplotlib, and run this with Debian\'s '
                      '/usr/bin/python3')


if __name__ == '__main__':
    sys.exit(main())
