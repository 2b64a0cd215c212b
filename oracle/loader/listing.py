"""Reads a listing of document 01, strictly: one line a node by rising id, children before their node."""

import re
from dataclasses import dataclass, field

FIRST_LINE = re.compile(r"(ok|spent) (0|[1-9][0-9]*)|ok (-)|refused ([0-9]+) at ([0-9]+)|outside .+")
NODE_LINE = re.compile(r"([0-9]+) ([0-9]+) ([0-9A-F]{16}) ([0-7])((?: [0-9]+){0,16})")
# What `--details` of the checker and the driver adds.
PRUNE_LINE = re.compile(r"record ([0-9]+) answer ([0-9]+) kept ([0-9]+) dropped ([0-9]+)")
DETAIL_LINE = re.compile(r"record [0-9]+ answer [0-9]+(?: steps [0-9]+)?|coefficient [0-9]+ [0-9A-F]{16}")

CANONICAL = 4


class Misread(Exception):
    """The text is no listing."""


@dataclass(frozen=True)
class Node:
    kind: int
    payload: int
    flags: int
    children: tuple

    def without_mark(self):
        return (self.kind, self.payload, self.flags & ~CANONICAL, self.children)


@dataclass
class Listing:
    # ok, spent, refused or outside
    word: str
    # the last answer's id, or nothing
    answer: int | None
    # the number of a refusal, or nothing
    refusal: int | None
    nodes: list = field(default_factory=list)
    # kept and dropped terms by the record of a prune, where the details are there
    counts: dict = field(default_factory=dict)


def read(text):
    if not text.endswith("\n"):
        raise Misread("the last line has no end")
    lines = text.split("\n")[:-1]
    listing = first_line(lines[0])
    for line in lines[1:]:
        if not node_line(listing, line):
            detail_line(listing, line)
    if listing.answer is not None and listing.answer >= len(listing.nodes):
        raise Misread(f"answer {listing.answer} is no node")
    return listing


def first_line(line):
    match = FIRST_LINE.fullmatch(line)
    if not match:
        raise Misread(f"first line '{line}'")
    answer = int(match[2]) if match[2] else None
    refusal = int(match[4]) if match[4] else None
    return Listing(line.split(" ")[0], answer, refusal)


def node_line(listing, line):
    """Takes a node's line; answers false if the line is of another form."""
    match = NODE_LINE.fullmatch(line)
    if not match:
        return False
    identifier = int(match[1])
    children = tuple(int(child) for child in match[5].split())
    if identifier != len(listing.nodes):
        raise Misread(f"node {identifier} stands where {len(listing.nodes)} is next")
    if any(child >= identifier for child in children):
        raise Misread(f"node {identifier} stands before a child")
    listing.nodes.append(Node(int(match[2]), int(match[3], 16), int(match[4]), children))
    return True


def detail_line(listing, line):
    match = PRUNE_LINE.fullmatch(line)
    if match:
        listing.counts[int(match[1])] = (int(match[3]), int(match[4]))
    elif not DETAIL_LINE.fullmatch(line):
        raise Misread(f"line '{line}'")
