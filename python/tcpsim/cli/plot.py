"""tcpsim-plot: draws a run.

Usage: bin/tcpsim-plot SCENARIO [TRACE] -o FILE.png|.svg|.pdf
                       [--panels window,sequence,timer,queue,delay,delay-cdf,utilization,progress]
                       [--flow NAMES] [--links NAMES] [--from T] [--to T] [--longer T] [--log] [--whole]
                       [--title TEXT] [--partial] [--program PATH | --model] [--beside SCENARIO [TRACE]]... [--names NAMES]

Without TRACE the program is run. Without --links the links are drawn at which packets waited longest, four
at most. With --beside the runs' flows are drawn beside each other, with the same axes, and their links in
the same panels, of each run the one at which packets waited longest. A time has its
unit, as 5s or 20ms. Wants matplotlib: apt-get install python3-matplotlib.
"""
from tcpsim import output
from tcpsim.plot import figure_of, words_of
from tcpsim.plot.choice import all_inputs
from tcpsim.plot.files import content_of


def main() -> None:
    """Draws what the words ask for."""
    given = words_of()
    with output.opened(given.file, all_inputs(given)) as file:
        file.write(content_of(figure_of(given), given.file))
