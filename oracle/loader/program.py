"""Runs a program that answers framed sheets with framed listings."""

import subprocess


class Stopped(Exception):
    """The program answered fewer sheets than it was given."""


def frame(data):
    return len(data).to_bytes(4, "big") + data


def answers(command, sheets):
    """The listing of each sheet."""
    given = b"".join(frame(sheet) for sheet in sheets)
    written = subprocess.run(["sh", "-c", command], input=given, stdout=subprocess.PIPE).stdout
    texts = list(frames(written))
    if len(texts) != len(sheets):
        raise Stopped(f"{len(texts)} answers to {len(sheets)} sheets")
    return texts


def frames(data):
    place = 0
    while place + 4 <= len(data):
        length = int.from_bytes(data[place : place + 4], "big")
        yield data[place + 4 : place + 4 + length].decode()
        place += 4 + length
