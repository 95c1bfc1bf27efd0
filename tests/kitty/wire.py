"""Reads the frames of a recorded line: an independent reader, so that the receiver under test does not judge itself."""

import base64
import re

FRAME = re.compile(rb"\x1b\]5113;([^\x1b]*)\x1b\\")
CODED = ("n", "st", "d")


def decoded(value):
    """Strict Base64: characters outside the alphabet and missing padding raise."""
    return base64.b64decode(value, validate=True)


def fields(text):
    """One command's text as a mapping; n, st and d are decoded to bytes."""
    found = dict(part.split("=", 1) for part in text.decode("ascii").split(";"))
    return {key: decoded(value) if key in CODED else value for key, value in found.items()}


def frame(found):
    """The frame of a command's fields, in their order."""
    texts = {key: base64.b64encode(value).decode() if key in CODED else value for key, value in found.items()}
    return b"\x1b]5113;" + ";".join(f"{key}={value}" for key, value in texts.items()).encode() + b"\x1b\\"


def commands(stream):
    """Every command of a stream, in order."""
    return [fields(text) for text in FRAME.findall(stream)]


def between(stream):
    """The bytes outside the frames."""
    return FRAME.sub(b"", stream)
