"""The classes of what one reader takes and another refuses. Each has a place in a message and a way to
mend it; a difference is of a class where it is gone once the class's places are mended."""

from fields import walk
from laxer import LAXER
from stricter import STRICTER

CLASSES = dict(STRICTER + LAXER)


def mended(message, title):
    """The message with each place of a class mended, or None where it has none."""
    changed = False
    try:
        places = list(walk(message))
    except (ValueError, IndexError):
        return None
    for name, holder, place, element in reversed(places):
        changed |= bool(CLASSES[title](name, holder, place, element))
    return places[0][1].content() if changed else None
