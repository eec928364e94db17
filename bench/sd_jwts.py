"""SD-JWT credentials that are the worst to read."""

import base64
import hashlib
import json
import random

LIMIT = 262_144
DISCLOSURES = 1_024
LEVELS = 64


def url64(data):
    return base64.urlsafe_b64encode(data).rstrip(b"=").decode()


def encoded(value):
    return url64(json.dumps(value, separators=(",", ":")).encode())


def disclosure(number, *name_and_value):
    return encoded([url64(number.to_bytes(16, "big")), *name_and_value])


def digest(text):
    return url64(hashlib.sha256(text.encode()).digest())


class Disclosures:
    """The texts of disclosures that are made one after the other."""

    def __init__(self):
        self.texts = []

    def add(self, *name_and_value):
        """The digest of a new disclosure."""
        self.texts.append(disclosure(len(self.texts), *name_and_value))
        return digest(self.texts[-1])


def credential(members, texts):
    header = {"alg": "ES256", "kid": "p1", "typ": "dc+sd-jwt"}
    plain = {"exp": 1800000000, "iss": "https://pid.example", "nbf": 1700000000, "vct": "urn:eudi:pid:1"}
    payload = {**plain, **members}
    message = ".".join([encoded(header), encoded(payload), url64(bytes(64))])
    return "~".join([message, *texts, ""])


def longest(make):
    """The longest of `make(0)`, `make(1)` .. that a credential file may hold."""
    low, high = 0, LIMIT
    while low < high:
        middle = (low + high + 1) // 2
        low, high = (middle, high) if len(make(middle)) <= LIMIT else (low, middle - 1)
    return make(low)


def flat(order):
    """1,024 members under the payload, whose digests stand in `_sd` in this order of the ascending names."""
    made = Disclosures()
    digests = [made.add("claim%04d" % i, "value %d" % i) for i in range(DISCLOSURES)]
    return credential({"_sd": order(digests)}, made.texts)


def chains(order):
    """16 chains of 64 disclosures inside one another, whose texts stand in this order of those that begin
    inside."""
    made = Disclosures()
    digests = []
    for chain in range(DISCLOSURES // LEVELS):
        value = "end"
        for level in reversed(range(1, LEVELS)):
            value = {"_sd": [made.add("level%d" % level, value)]}
        digests.append(made.add("chain%d" % chain, value))
    return credential({"_sd": sorted(digests)}, order(made.texts))


def descending(items):
    return items[::-1]


def shuffled(items):
    return random.Random(1).sample(items, len(items))


def mixed(seed):
    """Many small disclosures, some large ones, lists with placeholders, objects with digests; all it may have."""
    draw = random.Random(seed)
    made = Disclosures()
    digests = [made.add("small%d" % i, "value %d" % draw.randrange(10**6)) for i in range(500)]
    for i in range(20):
        elements = [{"...": made.add(draw.choice(["DE", "FR", i]))} for _ in range(15)]
        digests.append(made.add("list%d" % i, [*elements, "open"]))
    for i in range(20):
        inner = [made.add("part%d" % k, [k, i, None]) for k in range(4)]
        digests.append(made.add("record%d" % i, {"_sd": sorted(inner), "open": draw.randrange(10**9)}))
    for i in range(4):
        digests.append(made.add("rows%d" % i, [{"id": k, "name": "row %d" % k} for k in range(250)]))
    members = {"open%d" % i: {"country": "DE", "codes": [i, 2 * i]} for i in range(100)}

    def with_portrait(length):
        text = disclosure(0, "portrait", "x" * length)
        return credential({**members, "_sd": sorted([*digests, digest(text)])}, [*made.texts, text])

    return longest(with_portrait)


def among_plain():
    """1,024 short members, whose digests stand in descending order, before as many plain ones as may be."""
    texts = [encoded(["", "%03x" % i, 0]) for i in range(DISCLOSURES)]
    digests = [digest(text) for text in reversed(texts)]
    return longest(lambda count: credential({"_sd": digests, **dict.fromkeys(plain_names(count), 0)}, texts))


def plain_names(count):
    return ("x%x" % i for i in range(min(count, LIMIT // 9)))


def decoys():
    """As many digests without a disclosure as may be, beside one that has one."""
    made = Disclosures()
    found = made.add("claim", True)
    digests = [digest("decoy %d" % i) for i in range(LIMIT // 46)]
    return longest(lambda count: credential({"_sd": [found, *digests[:count]]}, made.texts))


def disclosed_list(element):
    """One disclosed list, of this element as often as may be."""

    def make(count):
        made = Disclosures()
        return credential({"_sd": [made.add("claim", [element] * min(count, LIMIT // 7))]}, made.texts)

    return longest(make)


def small_objects():
    return disclosed_list({"": 0})


def nested_objects():
    element = 0
    for _ in range(LEVELS - 2):
        element = {"": element}
    return disclosed_list(element)
