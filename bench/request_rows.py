#!/usr/bin/env python3
"""Writes the stored run of `request_check`: each rule of signed requests broken, and every two of them.

    bench/request_rows.py

It writes crates/request_check/stdin and stdout. What is awaited is said here, rule by rule; where two are
broken, the lesser is awaited."""

import itertools
import os
from urllib.parse import quote

from signed_requests import HEADER, QUERY, base, front, signed

CRATE = os.path.join(os.path.dirname(os.path.abspath(__file__)), "..", "crates", "request_check")
READ = "asked 1 rp.example n-0S6_WzA2Mj http://localhost:8080/response s1"


class Request:
    """The parts of a request before it is written."""

    def __init__(self):
        self.header, self.payload, self.secret = dict(HEADER), base(), 5
        self.tail, self.link = "", None

    def text(self):
        written = signed(self.header, self.payload, self.secret) + self.tail
        return written if self.link is None else self.link.replace("OBJECT", quote(written, safe=""))


def put(name, value):
    def change(request):
        request.payload[name] = value

    return change


def drop(name):
    def change(request):
        del request.payload[name]

    return change


def head(name, value):
    def change(request):
        request.header[name] = value

    return change


def assign(part, value):
    def change(request):
        setattr(request, part, value)

    return change


def query(*changes):
    """A query with these members in its first credential query."""
    return put("dcql_query", {"credentials": [{**QUERY["credentials"][0], **dict(changes)}]})


def other_client(request):
    request.payload["client_id"], request.secret = "other", 6


LINK = "openid4vp://?client_id=rp.example&request=OBJECT"

# The rule with the one within it, the part that is changed, and the change.
BROKEN = [
    ((1, 0), "link", assign("link", LINK + "&client_id=rp.example")),
    ((1, 0), "link", assign("link", LINK + "&request=x")),
    ((2, 0), "link", assign("link", "openid4vp://?request=OBJECT")),
    ((2, 0), "link", assign("link", "?client_id=rp.example")),
    ((2, 0), "link", assign("link", LINK + "&request_uri=http://x/")),
    ((3, 0), "link", assign("link", "?client_id=rp.example&request_uri=http://x/")),
    ((4, 1), "tail", assign("tail", ".")),
    ((4, 2), "tail", assign("tail", "!")),
    ((4, 3), "header", assign("header", b"[]")),
    ((4, 4), "alg", head("alg", "none")),
    ((4, 4), "alg", head("alg", 7)),
    ((4, 5), "crit", head("crit", [])),
    ((4, 6), "payload", assign("payload", b"[]")),
    ((5, 0), "typ", head("typ", "JWT")),
    ((6, 0), "client_id", put("client_id", 1)),
    ((6, 0), "client_id", drop("client_id")),
    ((7, 0), "link", assign("link", "?client_id=rp&request=OBJECT")),
    ((8, 0), "client_id", put("client_id", "redirect_uri:x")),
    ((8, 0), "client_id", put("client_id", "origin:x")),
    ((8, 0), "client_id", put("client_id", "rp.exampl")),
    ((8, 0), "client_id", put("client_id", "rp.example.org")),
    ((9, 0), "secret", assign("secret", 6)),
    ((10, 0), "request", put("request", "x")),
    ((10, 0), "request", put("request_uri", None)),
    ((11, 0), "aud", put("aud", "https://site.example")),
    ((11, 0), "aud", put("aud", None)),
    ((11, 0), "aud", put("aud", ["https://site.example", 1])),
    ((12, 0), "response_type", put("response_type", "code")),
    ((12, 0), "response_type", drop("response_type")),
    ((13, 0), "response_mode", put("response_mode", "direct_post.jwt")),
    ((14, 0), "redirect_uri", put("redirect_uri", "http://x/")),
    ((15, 0), "response_uri", put("response_uri", "response")),
    ((15, 0), "response_uri", put("response_uri", 1)),
    ((16, 0), "nonce", put("nonce", "")),
    ((16, 0), "nonce", put("nonce", "a b")),
    ((17, 0), "state", put("state", None)),
    ((18, 0), "scope", put("scope", "x")),
    ((19, 0), "transaction_data", put("transaction_data", [])),
    ((20, 0), "dcql_query", drop("dcql_query")),
    ((21, 1), "dcql_query", put("dcql_query", {"credentials": []})),
    ((21, 3), "dcql_query", query(("id", "a b"))),
    ((21, 8), "dcql_query", query(("trusted_authorities", []))),
    ((21, 14), "dcql_query", query(("claims", [{"path": []}]))),
]

# What may be changed, with the answer.
READ_TOO = [
    (put("aud", ["x", "https://self-issued.me/v2"]), READ),
    (drop("aud"), READ),
    (drop("state"), READ[: -len("s1")]),
    (put("x", 1.5), READ),
    (assign("link", LINK), READ),
    (assign("link", LINK + "&nonce=other&state=other#fragment&client_id=x"), READ),
    (assign("link", "?x=1&request=OBJECT&client_id=rp%2Eexample"), READ),
    (other_client, READ.replace("rp.example", "other")),
]


def apart(a, b):
    """Two changes that can be made together, and of which neither undoes the other."""
    parts = {a[1], b[1]}
    of_header = {"header", "alg", "crit", "typ"}
    of_message = {"tail", "secret", "link", "payload"} | of_header
    if a[1] == b[1] or ("header" in parts and parts <= of_header):
        return False
    if "payload" in parts and not parts <= of_message:
        return False
    return True


def awaited(rules):
    number, inner = min(rules)
    return "refused %d.%d" % (number, inner)


def rows():
    yield Request().text(), READ
    for change, answer in READ_TOO:
        request = Request()
        change(request)
        yield request.text(), answer
    for rule, _, change in BROKEN:
        request = Request()
        change(request)
        yield request.text(), awaited([rule])
    first = {rule: broken for rule, *broken in reversed(BROKEN)}
    for a, b in itertools.combinations([(rule, *first[rule]) for rule in sorted(first)], 2):
        if apart(a, b):
            request = Request()
            for part in sorted((a, b), key=lambda broken: broken[1] not in ("header", "payload")):
                part[2](request)
            yield request.text(), awaited([a[0], b[0]])


def main():
    texts, answers = zip(*rows())
    with open(os.path.join(CRATE, "stdin"), "w") as file:
        file.write(front() + "".join(text + "\n" for text in texts))
    with open(os.path.join(CRATE, "stdout"), "w") as file:
        file.write("".join(answer + "\n" for answer in answers))
    print(len(texts), "requests")


main()
