"""What nodes, links and flows are called at a prompt: by their numbers, and by the names that a text gives them."""
from tcpsim_model.debugger import number_to
from tcpsim_model.text import FLOW, LINK, NODE

SORTS = (NODE, LINK, FLOW)
NO_NAMES = 'this scenario has no names\n'


class Numbers:
    """Each sort's numbers from 0 on, in the order of the text."""

    def __init__(self, scenario):
        self.counts = {NODE: len(scenario.nodes), LINK: len(scenario.links), FLOW: len(scenario.flows)}

    def number_of(self, sort, word):
        """The number of the node, link or flow that a word means."""
        return number_to(self.counts[sort] - 1, word)

    def sort_of(self, _word):
        """The sort whose name a word is, or None."""
        return None

    def name_of(self, _sort, number):
        """What answers call one of a sort."""
        return str(number)

    def called(self, sort, number):
        return f'{sort} {self.name_of(sort, number)}'

    def listed(self):
        """All names."""
        return NO_NAMES


class Names(Numbers):
    """Names and numbers, of a scenario that has names: each text's."""

    def __init__(self, scenario):
        super().__init__(scenario)
        self.meant = scenario.names
        self.names = {meant: name.decode() for name, meant in scenario.names.items()}

    def number_of(self, sort, word):
        if self.sort_of(word) == sort:
            return self.meant[word][1]
        return super().number_of(sort, word)        # which no other name is

    def sort_of(self, word):
        return self.meant[word][0] if word in self.meant else None

    def name_of(self, sort, number):
        return self.names[sort, number]

    def listed(self):
        return ''.join(f'{sort} {number} {self.name_of(sort, number)}\n' for sort in SORTS for number in range(self.counts[sort]))


def names_in(scenario):
    """What a scenario's nodes, links and flows are called in the lines that a prompt reads, and in its answers."""
    return Names(scenario) if scenario.names else Numbers(scenario)
