"""Counters of feeds and of requests that are made up, and what is printed of them, by docs/formats alone.

The pages are counters.md and feeds.md there. It is made to be read, not to be fast.
"""

import json
import re

import schedules
from group_listing import read_claim
from vslog import raw_line

COUNTERS = {
    "sess_conn": "Sessions accepted",
    "client_req": "Good client requests received",
    "cache_hit": "Cache hits",
    "cache_hitpass": "Cache hits for pass",
    "cache_hitmiss": "Cache hits for miss",
    "cache_miss": "Cache misses",
    "backend_conn": "Backend conn. success",
    "backend_req": "Backend requests made",
    "fetch_failed": "Fetch failed (all causes)",
    "s_pipe": "Total pipe sessions seen",
    "s_pass": "Total pass-ed requests seen",
    "s_synth": "Total synthetic responses made",
    "s_req_hdrbytes": "Request header bytes",
    "s_req_bodybytes": "Request body bytes",
    "s_resp_hdrbytes": "Response header bytes",
    "s_resp_bodybytes": "Response body bytes",
    "shm_records": "SHM records",
    "shm_writes": "SHM writes",
    "shm_flushes": "SHM flushes due to overflow",
    "shm_cont": "SHM MTX contention",
    "shm_cycles": "SHM cycles through buffer",
}
OF_TAGS = {  # raised by each record of the tag
    "SessOpen": "sess_conn",
    "Hit": "cache_hit",
    "HitPass": "cache_hitpass",
    "HitMiss": "cache_hitmiss",
    "BackendOpen": "backend_conn",
    "FetchError": "fetch_failed",
}
OF_CALLS = {b"MISS": "cache_miss", b"PIPE": "s_pipe", b"PASS": "s_pass", b"SYNTH": "s_synth"}
OF_BYTES = {1: "s_req_hdrbytes", 2: "s_req_bodybytes", 4: "s_resp_hdrbytes", 5: "s_resp_bodybytes"}  # fields
BEYOND_BYTES = 2**32  # no number of bytes that counts
FIRST_SECOND = 1650000000  # at which the first made up request starts


def made_request(number, drawn):
    """The records of a made up request, as VXID, mark, tag and payload, in the order in which they are put.

    What was drawn for it decides whether it is a hit or a miss, its URL, and how many bytes its answer has.
    """
    session, request, fetch = 3 * number + 1, 3 * number + 2, 3 * number + 3
    is_miss, url, body, second = drawn % 4 == 0, f"/item/{drawn % 100}", drawn % 1000, FIRST_SECOND + number
    of_backend = [
        ("Begin", f"bereq {request} fetch"),
        ("BereqMethod", "GET"),
        ("BereqURL", url),
        ("BackendOpen", "25 main 10.0.0.9 8080 10.0.0.1 40000"),
        ("BerespStatus", "200"),
        ("BereqAcct", f"90 0 90 180 {body} {body + 180}"),
        ("End", ""),
    ]
    of_request = [
        ("Begin", f"req {session} rxreq"),
        ("Timestamp", f"Start: {second}.000000 0.000000 0.000000"),
        ("ReqStart", "10.0.0.7 41000 a0"),
        ("ReqMethod", "GET"),
        ("ReqURL", url),
        ("ReqProtocol", "HTTP/1.1"),
        ("ReqHeader", "Host: example.com"),
        *([("VCL_call", "MISS"), ("Link", f"bereq {fetch} fetch")] if is_miss else [("VCL_call", "HIT"), ("Hit", "1")]),
        ("RespStatus", "200"),
        ("Timestamp", f"Resp: {second}.001000 0.001000 0.001000"),
        ("ReqAcct", f"80 0 80 200 {body} {body + 200}"),
        ("End", ""),
    ]
    of_session = [
        ("Begin", "sess 0 HTTP/1"),
        ("SessOpen", "10.0.0.7 41000 a0 10.0.0.1 80"),
        ("Link", f"req {request} rxreq"),
        ("SessClose", "REM_CLOSE 0.010"),
        ("End", ""),
    ]
    for vxid, mark, records in (fetch, "b", of_backend), (request, "c", of_request), (session, "c", of_session):
        if is_miss or vxid != fetch:
            yield from ((vxid, mark, tag, payload.encode()) for tag, payload in records)


def made_listing(count, seed):
    """So many made up requests as the lines of a listing: each transaction is a batch, which its End ends."""
    draws = schedules.Draws(seed)
    records = (record for number in range(count) for record in made_request(number, draws.draw()))
    return b"".join(raw_line(*record) for record in records)


def raised(tag, payload):
    """The counters that a record raises, each with the number by which it does."""
    yield "shm_records", 1
    if tag in OF_TAGS:
        yield OF_TAGS[tag], 1
    if tag == "VCL_call" and payload.upper() in OF_CALLS:
        yield OF_CALLS[payload.upper()], 1
    if tag == "Begin":
        kind, _, reason = read_claim(payload)
        if kind == b"bereq":
            yield "backend_req", 1
        if kind == b"req" and reason == b"rxreq":
            yield "client_req", 1
    if tag == "ReqAcct":
        for place, text in enumerate(payload.split(), 1):
            if place in OF_BYTES and re.fullmatch(rb"[0-9]{1,10}", text) and int(text) < BEYOND_BYTES:
                yield OF_BYTES[place], int(text)


def counted(listings, ring):
    """The value of each counter, of listings with their cuts and of the ring in which their units lie."""
    values = dict.fromkeys(COUNTERS, 0)
    for units, cuts in listings:
        values["shm_writes"] += len(units)
        values["shm_flushes"] += cuts
        for unit in units:
            for tag, payload in unit.records:
                for name, number in raised(tag, payload):
                    values[name] += number
    values["shm_cycles"] = ring.wraps
    return values


def replayed_values(listings, seg, seed):
    """The value of each counter where nobody reads, in turns of a seed; without one, feed after feed."""
    return counted(listings, schedules.replayed_unread([units for units, _ in listings], seg, seed))


def matches(glob, name):
    """Each star stands for any letters, also for none, and any other letter for itself."""
    places = {0}  # where in the name that may end for which the part of the glob stands that was looked at
    for letter in glob:
        if letter == "*":
            places = set(range(min(places), len(name) + 1)) if places else places
        else:
            places = {place + 1 for place in places if name[place : place + 1] == letter}
    return len(name) in places


def selected(globs):
    """The counters whose whole name matches a glob, in their order; without a glob all."""
    return [name for name in COUNTERS if not globs or any(matches(glob, "MAIN." + name) for glob in globs)]


def text_lines(values, globs):
    return "".join(f"{'MAIN.' + name:30} {values[name]:12} {COUNTERS[name]}\n" for name in selected(globs))


def json_text(values, globs):
    def told(name):
        unit = "B" if name in OF_BYTES.values() else "i"
        return {"description": COUNTERS[name], "flag": "c", "format": unit, "value": values[name]}

    counters = {"MAIN." + name: told(name) for name in selected(globs)}
    return json.dumps({"counters": counters, "version": 1}, sort_keys=True, separators=(",", ":")) + "\n"


def name_lines(globs):
    return "".join(f"MAIN.{name}\n" for name in selected(globs))
