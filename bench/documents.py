"""Mobile documents that are the worst to read."""

import hashlib
import random

from sd_jwts import LIMIT, longest, url64

DOCTYPE = "org.iso.18013.5.1.mDL"
SPACE = "org.iso.18013.5.1"
ITEMS = 1_024
LEVELS = 32


class Tag:
    def __init__(self, number, content):
        self.number = number
        self.content = content


class Encoded:
    """The encoding of an item, or of several."""

    def __init__(self, data):
        self.data = data


def head(major, number):
    if number < 24:
        return bytes([major << 5 | number])
    for info, size in ((24, 1), (25, 2), (26, 4), (27, 8)):
        if number < 1 << 8 * size:
            return bytes([major << 5 | info]) + number.to_bytes(size, "big")


def cbor(value):
    if isinstance(value, Encoded):
        return value.data
    if isinstance(value, Tag):
        return head(6, value.number) + cbor(value.content)
    if value is None or isinstance(value, bool):
        return {None: b"\xf6", False: b"\xf4", True: b"\xf5"}[value]
    if isinstance(value, int):
        return head(0, value) if value >= 0 else head(1, -1 - value)
    if isinstance(value, bytes):
        return head(2, len(value)) + value
    if isinstance(value, str):
        return head(3, len(value.encode())) + value.encode()
    if isinstance(value, list):
        return head(4, len(value)) + b"".join(map(cbor, value))
    entries = sorted((cbor(key), cbor(entry)) for key, entry in value.items())
    return head(5, len(entries)) + b"".join(key + entry for key, entry in entries)


def tagged(value):
    """The bytes of an item under the tag for encoded items."""
    return Tag(24, cbor(value))


def item(number, name, value):
    return tagged(
        {
            "digestID": number,
            "random": number.to_bytes(16, "big"),
            "elementIdentifier": name,
            "elementValue": value,
        }
    )


def digest(item):
    return hashlib.sha256(cbor(item)).digest()


def document(spaces, more_digests=None, **more):
    """The text of a document with these lists of elements, by their namespaces, and with more digests and
    members."""
    items, digests, number = {}, {}, 0
    for space, elements in spaces.items():
        items[space] = [item(number + i, name, value) for i, (name, value) in enumerate(elements)]
        digests[space] = {number + i: digest(item) for i, item in enumerate(items[space])}
        number += len(elements)
    for space, others in (more_digests or {}).items():
        digests[space] = {**others, **digests.get(space, {})}
    return signed({space: list(map(Encoded, map(cbor, of))) for space, of in items.items()}, digests, **more)


def signed(items, digests, **more):
    date = Tag(0, "2024-01-01T00:00:00Z")
    signed = {
        "version": "1.0",
        "digestAlgorithm": "SHA-256",
        "docType": DOCTYPE,
        "valueDigests": digests,
        "validityInfo": {"signed": date, "validFrom": date, "validUntil": Tag(0, "2034-01-01T00:00:00Z")},
        "deviceKeyInfo": {"deviceKey": {1: 2, -1: 1, -2: bytes(32), -3: bytes(32)}},
    }
    auth = [cbor({1: -7}), {4: b"m1"}, cbor(tagged(signed)), bytes(64)]
    return url64(cbor({"nameSpaces": items, "issuerAuth": auth, **more}))


def items():
    """1,024 items in four namespaces."""
    return document(
        {"space%d" % s: [("element%d" % i, "value %d" % i) for i in range(ITEMS // 4)] for s in range(4)}
    )


def mixed(seed):
    """Many small items, some large ones with lists and maps; as long as may be."""
    draw = random.Random(seed)
    elements = [("small%d" % i, "value %d" % draw.randrange(10**6)) for i in range(400)]
    elements += [("age_over_%d" % i, i < 40) for i in range(100)]
    elements += [("date%d" % i, Tag(1004, "1990-01-%02d" % draw.randrange(1, 29))) for i in range(50)]
    for i in range(20):
        rows = [{"code": k, "sign": "=", "issued": Tag(1004, "2020-01-01")} for k in range(60)]
        elements.append(("privileges%d" % i, rows))
    return longest(lambda length: document({SPACE: [*elements, ("portrait", bytes(length))]}))


def one_element(make):
    """A document of one element, with the longest value that `make` gives."""
    return longest(lambda count: document({SPACE: [("element", make(count))]}))


def map_of_numbers():
    """A map of as many entries as may be."""
    return one_element(lambda count: {number: 0 for number in range(min(count, LIMIT // 4))})


def map_of_texts():
    """A record of as many members as may be."""
    return one_element(lambda count: {"%x" % number: 0 for number in range(min(count, LIMIT // 4))})


def short_values():
    """A list of as many items as may be."""
    return one_element(lambda count: [0] * count)


def nested_maps():
    """Maps inside one another as deep as may be, and as many of them as may be."""

    def make(count):
        value = Encoded(b"\xa1\x00" * (LEVELS - 2) + b"\x00")
        return [value] * min(count, LIMIT // 61)

    return one_element(make)


def most_digests():
    """1,024 items, whose digests stand in a map of as many as may be."""
    elements = [("element", 0), *(("e%d" % i, 0) for i in range(1, ITEMS))]

    def make(count):
        others = {number: b"" for number in range(ITEMS, ITEMS + min(count, LIMIT // 4))}
        return document({SPACE: elements}, {SPACE: others})

    return longest(make)


def too_many_items():
    """As many items as may be, far past their limit."""

    def make(count):
        return signed({SPACE: [Tag(24, b"")] * count}, {})

    return longest(make)
