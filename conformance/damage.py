"""Damage to the octets of a message: what a sender writes that is wrong, and what a line does."""

from fields import walk


def damaged(rng, octets):
    """The octets with one of them changed, fewer or more of them, or a part of the message displaced."""
    kind, at = rng.randrange(6), rng.randrange(len(octets))
    if kind == 0:
        return octets[:at] + bytes([rng.randrange(256)]) + octets[at + 1 :]
    if kind == 1:
        return octets[:at] + bytes([octets[at] ^ (1 << rng.randrange(8))]) + octets[at + 1 :]
    if kind == 2:
        return octets[:at] + bytes([(octets[at] + rng.choice([1, 255])) % 256]) + octets[at + 1 :]
    if kind == 3:
        return octets[: max(1, rng.choice([at, len(octets) - 1, len(octets) - 2]))]
    if kind == 4:
        return octets + rng.randbytes(rng.randrange(1, 3))
    return displaced(rng, octets)


def displaced(rng, octets):
    """The message with one part left out, told twice or exchanged with the next."""
    try:
        places = list(walk(octets))
    except (ValueError, IndexError):
        return octets
    if len(places) < 2:
        return octets
    _, holder, number, element = rng.choice(places[1:])
    change = rng.randrange(3)
    if change == 0:
        del holder.inside[number]
    elif change == 1:
        holder.inside.insert(number, element)
    else:
        holder.inside[number : number + 2] = holder.inside[number : number + 2][::-1]
    return places[0][1].content()
