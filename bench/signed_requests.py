"""Signed requests, as a site of the bench makes them, and each with one change."""

import base64
import hashlib
import json

KEYS = [
    (1, 'kid:["https://pid.example","p1"]'),
    (5, 'kid:["rp.example","r1"]'),
    (6, "the other key"),
]
CLIENTS = [
    ("rp.example", KEYS[1][1]),
    ("other", "the other key"),
    ("redirect_uri:x", KEYS[1][1]),
    ("origin:x", KEYS[1][1]),
]
QUERY = {"credentials": [{"id": "a", "format": "dc+sd-jwt"}]}
HEADER = {"alg": "BENCH256", "typ": "oauth-authz-req+jwt"}


def base():
    return {
        "aud": "https://self-issued.me/v2",
        "client_id": "rp.example",
        "dcql_query": QUERY,
        "nonce": "n-0S6_WzA2Mj",
        "response_mode": "direct_post",
        "response_type": "vp_token",
        "response_uri": "http://localhost:8080/response",
        "state": "s1",
    }


def url64(data):
    return base64.urlsafe_b64encode(data).rstrip(b"=").decode()


def compact(value):
    return json.dumps(value, separators=(",", ":"), ensure_ascii=False).encode()


def signed(header, payload, secret=5):
    """The request object with these parts, signed by the key whose secret is this byte 32 times."""
    head = url64(header if isinstance(header, bytes) else compact(header))
    body = url64(payload if isinstance(payload, bytes) else compact(payload))
    message = head + "." + body
    return message + "." + url64(hashlib.sha256(bytes([secret]) * 32 + message.encode()).digest())


def front():
    """The keys and the clients, as `request_check` reads them before the requests."""
    keys = "".join("hold %s %s\n" % ("%02x" % byte * 32, name) for byte, name in KEYS)
    clients = "".join("%s %s\n" % pair for pair in CLIENTS)
    return keys + "\n" + clients + "\n"
