#!/usr/bin/env python3
"""The traces that chicheck refuses, as a process: members left out, of another kind and past their bounds, texts that are no JSON, and
too many requests."""

import json
import os
import sys

os.chdir(f"{os.path.dirname(os.path.abspath(__file__))}/..")
sys.dont_write_bytecode = True

from process import build, end, explained, is_not, refused, trace, unexplained
from samples import FIRST, MOST, OBJECT, UNEXPLAINED, adds, sample, witness_of_sample


def members_that_are_refused():
    for name in OBJECT:
        if name == "base":
            refused(f"missing_members: {name}", sample({name: ""}), f"trace member {name} is missing")
    # Of all addresses the words are lists.
    refused("missing_members: granules", sample({"granules": ""}), f"trace {is_not('image', json.loads(OBJECT['image']))}")
    unexplained("missing_members: image", sample({"image": ""}), UNEXPLAINED)
    explained("missing_members: final", sample({"final": ""}), witness_of_sample())
    explained("missing_members: end", sample({"end": ""}), witness_of_sample())
    explained("missing_members: end and reply", sample({"end": "", "reply": ""}), witness_of_sample())
    for name in FIRST:
        if name != "end":
            refused(f"missing_members: {name}", sample({name: ""}), f"request 1 member {name} is missing")
    explained("a reply that was not seen", sample({"reply": "null"}), witness_of_sample())
    for usual, of, text in [(OBJECT, "trace", '"4096"'), (FIRST, "request 1", '"3"')]:
        for name in usual:
            for value in ["null", "true", "false", "[]", "{}", "-1", "0.5", "1e1", text]:
                case = f"members_of_the_wrong_kind: {name} {value}"
                if (name, value) != ("reply", "null"):
                    refused(case, sample({name: value}), f"{of} {is_not(name, json.loads(value))}")
    whole = '{"base":4096,"granules":1}'
    refused("requests_that_are_no_list: missing", whole, "trace member requests is missing")
    for value in ["null", "0", '""', "{}"]:
        text = f'{whole[:-1]},"requests":{value}}}'
        refused(f"requests_that_are_no_list: {value}", text, f"trace {is_not('requests', json.loads(value))}")


def bounds():
    word, packet = '"0700000000000000', '"0000000000000000'
    past = {
        "base": ["18446744073709551616"],
        "granules": ["65536"],
        "image": [f'{word}ff0000000000000"', f'{word}ff000000000000000"'],
        "final": ['""', f'{word}"', f'{word}ff0000000000000"', f'{word}ff000000000000000"',
                  f'{word}ff00000000000000ff00000000000000"', f'{word}ff0000000000000g"'],
        "src": ["65536"],
        "txn": ["65536"],
        "op": ["256"],
        "size": ["8"],
        "addr": ["18446744073709551616"],
        "endian": ["2"],
        "be": ["65536"],
        "lanes": [f'{packet}010000000000000"', f'{packet}01000000000000000"'],
        "start": ["18446744073709551616"],
        "end": ["18446744073709551616"],
        "reply": ['""', '"com"', '"comp "', '"Comp"', f'{packet}ff0000000000000"', f'{packet}ff000000000000000"',
                  f'{packet}ff0000000000000g"'],
    }  # fmt: skip
    for name, values in past.items():
        for value in values:
            of = "trace" if name in OBJECT else "request 1"
            refused(f"members_past_their_bounds: {name} {value}", sample({name: value}), f"{of} {is_not(name, json.loads(value))}")
    explained("members_at_their_bounds: 0", sample({"src": "0", "txn": "0"}), witness_of_sample(0, 0))
    explained("members_at_their_bounds: 65535", sample({"src": "65535", "txn": "65535"}), witness_of_sample(65535, 65535))
    # The second ends before the first begins, and answered what it can only answer after it.
    unexplained("members_at_their_bounds: ends at 0", sample({"start": "0", "end": "0"}), f"{UNEXPLAINED}at 0: ")
    for times in [{"start": "9"}, {"end": "3"}, {"end": str(MOST)}, {"start": str(MOST), "end": str(MOST)}]:
        explained(f"members_at_their_bounds: {times}", sample(times), witness_of_sample())
    for times in [{"start": "10"}, {"end": "2"}, {"start": "1", "end": "0"}, {"start": str(MOST)}]:
        refused(f"ends_before_starts: {times}", sample(times), "request 1 ends before it starts")


def no_json():
    whole = sample().encode()
    for at in range(len(whole)):
        refused(f"texts_that_are_no_json: at {at}", whole[:at], "trace is not JSON")
    for byte in [0xFF, ord('"'), ord("{"), 0]:
        refused(f"bytes_that_are_no_json: {byte}", whole[:7] + bytes([byte]) + whole[8:], "trace is not JSON")
    refused("bytes_that_are_no_json: 127 deep", "[" * 127 + "]" * 127, "trace is not an object")
    refused("bytes_that_are_no_json: 128 deep", "[" * 128 + "]" * 128, "trace is not JSON")


def long_traces():
    # They are counted before the first is looked at.
    for count in [1048575, 1048576, 1048577, 1100000]:
        fault = "request 0 is not an object" if count <= 1048576 else "trace has over 1048576 requests"
        refused(f"traces_past_the_most_requests: {count}", trace([0] * count, 2), fault)
    refused("fault_after_many_requests", trace([*adds(600), {}], 2), "request 600 member src is missing")


build("chicheck")
for tried in [members_that_are_refused, bounds, no_json, long_traces]:
    tried()
end(650)
