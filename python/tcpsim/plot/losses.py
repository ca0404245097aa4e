"""Lost packets of flows: where they are drawn, by which sign, how many, and under which name."""
from __future__ import annotations

from collections import namedtuple
from collections.abc import Callable, Iterable, Sequence

from matplotlib.axes import Axes

from tcpsim.traces.reader import ACK, DATA

from .picture import FlowView, Picture
from .style import HALO, NOTE, OF_ACKS, ON_WHITE, SIGNS, sign_look, sign_of

MOST_NAMED = 6          # lost packets that are named beside their sign, at most
NEAR = .02, .06         # parts of a panel's width and height: signs that are nearer to each other have one name
TOUCH, COUNTED = 8, 32        # points from sign to sign within which they are one with its count, and so wide it is with that
COUNT_SIZE = 9          # points of the letters of a count

# A packet that was lost: `link` is the link's number; `number` is a segment's first byte, or what an acknowledgement says.
Loss = namedtuple('Loss', 'time link reason number is_ack')


def lost(picture: Picture, view: FlowView, acks: bool = False) -> list[Loss]:
    """The segments of a flow that were lost in sight, or the acknowledgements."""
    return [Loss(time, link, reason, number, acks) for time, link, reason, sort, number in view.run.drops
            if sort == (ACK if acks else DATA) and picture.sees(time)]


# ---- signs

def links_of_losses(picture: Picture) -> dict:
    """Of the links at which segments were lost in sight the views, where they are several; else none."""
    at = {loss.link for view in picture.flows for loss in lost(picture, view)}
    if picture.beside or len(at) < 2:
        return {}
    return {view.run.number: view for view in picture.links if view.run.number in at}


def color_of(picture: Picture, view: FlowView, reason: str, is_ack: bool = False) -> str:
    """The colour of a loss's sign: of acknowledgements theirs, of segments the reason's, or with several flows the flow's."""
    return OF_ACKS if is_ack else picture.color_of(view) if len(picture.flows) > 1 else SIGNS[reason][1]


def mark_lost(picture: Picture, axes: Axes, view: FlowView, losses: list[Loss], height: Callable, size: float) -> None:
    """A sign for each loss, at the height that is said of it."""
    found = {}
    for loss in losses:
        look = loss.reason, loss.is_ack, color_of(picture, view, loss.reason, loss.is_ack)
        found.setdefault(look, []).append((loss.time, height(loss)))
    for (reason, is_ack, color), points in found.items():
        picture.points(axes, *zip(*points), 1, ms=size * (1.4 if is_ack else 1), mew=1.4, color=color, zorder=3.8,
                       path_effects=HALO, **sign_look(reason, is_ack))


def mark_row(picture: Picture, axes: Axes, times: Iterable[int], height: float, width: float, **look: object) -> None:
    """Signs in a row of a panel so wide (points), at a height. Those that would touch are one sign, where the first is, with their
    count. Times are ns."""
    for part in groups(picture.across(sorted(times), width), sorted(times)):
        x = float(picture.clock.x(part[0]))
        axes.plot([x], [height], ls='none', clip_on=False, **{'ms': 6, 'mew': 1.3, 'zorder': 3.8, 'path_effects': HALO, **look})
        if len(part) > 1:
            axes.annotate(f'×{len(part)}', (x, height), xytext=(4, 0), textcoords='offset points', va='center',
                          fontsize=COUNT_SIZE, color='#222222', zorder=3.7, bbox={**ON_WHITE, 'boxstyle': 'square,pad=0'})


def rows_apart(picture: Picture, sorts: dict, width: float) -> list[dict]:
    """Sorts of signs in rows in which no sign or count lies on one of another sort: the sorts of each row. `sorts` has of each
    its moments in ns; the panel is so wide (points)."""
    rows = []
    for sort, times in sorts.items():
        room = extents(picture, times, width)
        row = next((row for row in rows if not any(meet(room, extents(picture, others, width)) for others in row.values())), None)
        if row is None:
            rows.append(row := {})
        row[sort] = times
    return rows


def extents(picture: Picture, times: Iterable[int], width: float) -> list[tuple[float, float]]:
    """From where to where the signs of a sort go, each with its count, in a row of a panel so wide; in points."""
    places = picture.across(sorted(times), width)
    return [(part[0] - TOUCH / 2, part[0] + (COUNTED if len(part) > 1 else TOUCH / 2)) for part in groups(places, places)]


def meet(spans: Iterable[tuple[float, float]], others: Iterable[tuple[float, float]]) -> bool:
    """Whether one of the spans has a part of one of the others."""
    return any(left < its_right and its_left < right for left, right in spans for its_left, its_right in others)


def groups(places: Sequence[float], times: Sequence[int]) -> list[list[int]]:
    """Moments in their order, those together whose places, in points, are so near that their signs would touch each other or
    the count of the one before."""
    found, at = [], []
    for place, time in zip(places, times):
        if at and (place - at[-1] < TOUCH or len(at) > 1) and place - at[0] < COUNTED:
            at.append(place)
            found[-1].append(time)
        else:
            at = [place]
            found.append([time])
    return found


def loss_rows(picture: Picture, losses: Iterable[Loss], width: float) -> list[tuple[str, dict]]:
    """When segments were lost, by the link, where the picture has several at which some were, and in a panel so wide (points) by
    the reason too, where signs would meet: the link's name, and of each reason the moments in ns. One row at least."""
    links, found = links_of_losses(picture), {}
    for loss in sorted(losses, key=lambda loss: loss.link):
        of_link = found.setdefault(links[loss.link].name if loss.link in links else '', {})
        of_link.setdefault(loss.reason, []).append(loss.time)
    return [(name, row) for name, reasons in found.items() for row in rows_apart(picture, reasons, width)] or [('', {})]


def loss_key(picture: Picture, acks: bool = False) -> list:
    """The signs of the losses that a picture shows, each with how many there are, where all flows are shown."""
    key, color = [], picture.key_color() if len(picture.flows) > 1 else None
    for is_ack in (False, True)[:1 + acks]:
        losses = [loss for view in picture.flows for loss in lost(picture, view, is_ack)]
        counts = {reason: sum(loss.reason == reason for loss in losses) for reason in SIGNS}
        key += [sign_of(reason, is_ack, OF_ACKS if is_ack else color, count=None if picture.beside or picture.others else count)
                for reason, count in counts.items() if count]
    return key


# ---- names

def name_lost(picture: Picture, axes: Axes, losses: list[Loss], scale: int, height: float) -> None:
    """Writes beside each lost packet which it is, and whether it was lost before; signs that lie close to each other have one
    name. `height` is the panel's, in the axis' unit. The layout finds the place."""
    if len(losses) > MOST_NAMED:
        return
    left, right = picture.clock.x(picture.window)
    named, seen = [], set()
    for loss in sorted(losses, key=lambda loss: (loss.is_ack, loss.time, loss.number)):
        x, y, again = float(picture.clock.x(loss.time)), loss.number / scale, (loss.is_ack, loss.number) in seen
        seen.add((loss.is_ack, loss.number))
        sort = 'ack {} lost' if loss.is_ack else '{} lost\nagain' if again else '{} lost'
        last = named[-1] if named else None
        if last and last[0] == sort and x - last[1] < NEAR[0] * (right - left) and 0 < y - last[2] < NEAR[1] * height:
            named[-1] = (sort, x, y, [*last[3], loss.number])
        else:
            named.append((sort, x, y, [loss.number]))
    for sort, x, y, numbers in named:
        text = sort.format(', '.join(f'{number:,}' for number in numbers))
        picture.labels.setdefault(axes, []).append(axes.annotate(
            text, (x, y), xytext=(5, 5), textcoords='offset points', fontsize=NOTE, color='#000000', zorder=5, linespacing=1,
            bbox=ON_WHITE))
