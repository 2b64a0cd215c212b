"""The chain of a formula, and its terms kept and dropped at a threshold."""

import kinds


def terms(nodes, root):
    """01: "the terms of an Add are those of its children, left to right, a shared one each time it is met"."""
    found = []
    waiting = [root]
    while waiting:
        identifier = waiting.pop()
        if nodes[identifier].kind == kinds.ADD:
            waiting.extend(reversed(nodes[identifier].children))
        else:
            found.append(identifier)
    return found


def is_dropped(node, threshold):
    """Whether a term is a constant "whose magnitude is below the threshold"."""
    return node.kind == kinds.CONSTANT and abs(kinds.double(node.payload)) < threshold


def split(nodes, root, threshold):
    """The kept and the dropped terms of the chain under an Add, in order."""
    chain = terms(nodes, root)
    kept = [term for term in chain if not is_dropped(nodes[term], threshold)]
    dropped = [term for term in chain if is_dropped(nodes[term], threshold)]
    return kept, dropped
