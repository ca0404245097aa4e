"""What is missing of what a flow has sent, and what became of the copies of it that were dropped."""
from tcpsim_model.text import LINK
from tcpsim_model.waits import sort_of

FATES = {'lost': 'lost by name', 'full': 'dropped (full)', 'codel': 'dropped (codel)'}


def missing(net, flow, drops, names):
    """The line that tells it; nothing where all is there. `drops` has of each line what it dropped: reason, link and packet of each."""
    ends = net.flows[flow]
    sender, receiver = net.ends[ends.sender], net.ends[ends.receiver]
    if receiver.next < sender.high:
        head, found = f'missing at the receiver: byte {receiver.next}', sought(flow, False, range(receiver.next, receiver.next + 1))
    elif sender.una < receiver.next:
        head, found = f'missing at the sender: an acknowledgement above {sender.una}', sought(flow, True, range(sender.una + 1, receiver.next + 1))
    else:
        return ''
    told = [f'{sort_of(packet)} {FATES[reason]} at {names.called(LINK, link)} in line {number}'
            for number, dropped in enumerate(drops, 1) for reason, link, packet in dropped if found(packet)]
    return ', '.join([head, *told]) + '\n'


def sought(flow, acks, numbers):
    """Whether a packet is one of these."""
    return lambda packet: packet[0] == flow and bool(packet[1]) == acks and packet[2] in numbers
