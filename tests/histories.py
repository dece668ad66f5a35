"""Drawn histories that several scripts put into other orders, and the replies of calls whose end is not known."""

# Replies of which some are wrong.
REPLIES = ("true", "false exists", "-1", "0", "1", "5")


def interleaved(draw, lines):
    """The lines of calls in another order, each client's as they were."""
    queues, mixture = {}, []
    for line in lines:
        queues.setdefault(line.split(" ")[0], []).append(line)
    while queues:
        client = draw.choice(sorted(queues))
        mixture.append(queues[client].pop(0))
        if not queues[client]:
            del queues[client]
    return mixture


def unconfirmed(draw, reply):
    """The reply of a call with END `-`, of which this reply is the right one: that of a pending call, or that of an
    undetermined call, which may be wrong."""
    return draw.choice(["?", "?", reply, reply, draw.choice(REPLIES)])
