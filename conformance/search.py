"""The search for the classes that explain why the program and a reader read a message otherwise."""

import collections

from classes import mended
from expected import AGREE, BOTH_REFUSE, THEY, others, permitted

# A message in which the places of some classes are mended, how it is read, and these classes, each with
# the side that takes the message before.
State = collections.namedtuple("State", "message side steps")


def search(reader, start):
    """Looks for a small set of classes that ends a difference, each permitted where it is mended: for one class
    first, then for two, and so on, as `states` grows. Yields messages, none of them twice, and is sent how
    each is read. Returns the state in which both agree, or else the one with the most classes mended."""
    states, seen, furthest = [start], {start.message}, start
    for state in states:
        for title in permitted(reader, start.side):
            changed = mended(state.message, title)
            if changed is None or changed in seen:
                continue
            seen.add(changed)
            reached = State(changed, (yield changed), state.steps + [(start.side, title)])
            if reached.side not in (start.side, BOTH_REFUSE):
                # It is read otherwise in another way now, or alike. That binds: other sets, which may take
                # away what still differs, aren't tried any more.
                return reached if reached.side == AGREE else (yield from search(reader, reached))
            if reached.side == start.side:
                furthest = reached
            if may_go_on(start.side, reached.side):
                states.append(reached)
    return furthest


def may_go_on(before, after):
    """Whether further classes may be mended. Where both refuse, this is so if we did before: for several
    rules, of which the reader has one too that a mending brought to light. What we take by a laxer rule is
    taken still where it is mended."""
    return after != BOTH_REFUSE or before == THEY


def search_others(reader, start):
    """Looks, in the same way, for a class that isn't permitted and changes how a message is read. It explains
    nothing, and only names a failure. Returns the state with it, or the one with all mended that change
    nothing."""
    message = start.message
    for title in others(reader, start.side):
        changed = mended(message, title)
        if changed is None:
            continue
        side = yield changed
        if side not in (start.side, BOTH_REFUSE):
            return State(changed, side, [(start.side, title)])
        if side == start.side:
            message = changed
    return State(message, start.side, [])
