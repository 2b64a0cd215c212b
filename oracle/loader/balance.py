"""Demand 3 of one sheet, from the listings after each of its records."""

from collections import Counter
from random import Random

import chain
import exact
import kinds
import listing
import values

READINGS = 2
# The one refusal that a sheet of the loader may meet.
TOO_MANY_TERMS = 23


class Wrong(Exception):
    """What the listings say is not what demand 3 says."""


def check(records, texts, seed):
    """Counts what was checked; `texts` are the listings of the sheet cut after each record."""
    counted = Counter(sheets=1)
    listings = answered(texts, counted)
    for before, after in zip(listings, listings[1:]):
        check_stays(before.nodes, after.nodes)
    for later, record in enumerate(records[: len(listings)]):
        if record.threshold is None:
            continue
        for earlier in range(later):
            if is_simplify(records[earlier]) and listings[earlier].answer == listings[record.operand].answer:
                check_pair(records, listings, earlier, later, Random(f"{seed} {earlier} {later}"), counted)
    return counted


def is_simplify(record):
    return record.operand is not None and record.threshold is None


def answered(texts, counted):
    """The listings of the records up to the first that has over 4,096 terms, or is outside what the program answers."""
    listings = []
    for text in texts:
        read = listing.read(text)
        if read.word == "outside" or read.refusal == TOO_MANY_TERMS:
            counted["sheets cut short"] += 1
            break
        require(read.refusal is None, f"refused with {read.refusal}")
        listings.append(read)
    return listings


def check_stays(before, after):
    """01: "No later call changes the formula of an id". Only marks may change."""
    if len(after) < len(before) or any(old.without_mark() != new.without_mark() for old, new in zip(before, after)):
        raise Wrong("a node changed")


def check_pair(records, listings, earlier, later, random, counted):
    """A simplify record and a later prune of its answer."""
    old = listings[records[earlier].operand].answer
    before = listings[earlier - 1].nodes
    if not exact.exact(before)[old]:
        counted["pairs not of the exact kind"] += 1
        return
    simplified = listings[earlier]
    pruned = listings[later]
    kept, dropped = check_shape(simplified, pruned, records[later].threshold)
    counts = pruned.counts.get(later)
    if counts is not None:
        counted["counts compared"] += 1
        if counts != (len(kept), len(dropped)):
            raise Wrong(f"reported {counts}, kept and dropped are {len(kept)} and {len(dropped)}")
    for _ in range(READINGS):
        check_value(values.Reading(random), before, old, simplified.nodes, dropped, pruned)
    counted["pairs checked"] += 1
    counted["pairs of a spent simplify"] += simplified.word == "spent"
    counted["pairs with a dropped term"] += bool(dropped)
    counted["pairs whose formula was changed"] += simplified.answer != old


def check_shape(simplified, pruned, threshold):
    """The kept and the dropped terms; the kept ones must be what the prune answers."""
    nodes = simplified.nodes
    if nodes[simplified.answer].kind != kinds.ADD:
        require(pruned.answer == simplified.answer, "what has no chain is not answered itself")
        return [simplified.answer], []
    kept, dropped = chain.split(nodes, simplified.answer, threshold)
    match kept:
        case []:
            require(pruned.nodes[pruned.answer].without_mark() == (kinds.CONSTANT, 0, 0, ()), "no term is kept, no 0.0")
        case [term]:
            require(pruned.answer == term, "the one kept term is not the answer")
        case _:
            terms = chain.terms(pruned.nodes, pruned.answer)
            require(terms == kept, "the answer's terms are not the kept ones in order")
    return kept, dropped


def check_value(reading, before, old, nodes, dropped, pruned):
    """That "the old formula's value equals the pruned one's plus the sum of the dropped terms"."""
    old_value = values.work_out(before, reading)[old]
    of_simplified = values.work_out(nodes, reading)
    new_value = values.work_out(pruned.nodes, reading)[pruned.answer]
    difference = old_value - new_value - sum(of_simplified[term] for term in dropped)
    require(difference == 0, f"old value {old_value}, pruned one {new_value}, off by {difference}")


def require(condition, otherwise):
    if not condition:
        raise Wrong(otherwise)
