"""Gives the program every prefix of two logs of thirty records under each grouping, and counts what it prints.

Each record of the prefix that the grouping reports stands in the output once, under its VXID, with two records more
for each transaction that was force-completed, and nothing else does.
"""

import vslog
from checks.running import Failed, run

# A request with a fetch, a restart, ESI requests out of order, and times that rise and fall: VXID, tag, payload. The
# last field of a payload is the record's place.
REQUESTS = [
    (3, "Begin", "bereq 2 fetch"), (3, "Timestamp", "Start: 100.5 0"), (2, "Begin", "req 1 rxreq"),
    (2, "Link", "bereq 3 fetch"), (3, "End", ""), (3, "Begin", "bereq 2 retry"), (2, "Link", "req 4 restart"),
    (2, "End", ""), (0, "Timestamp", "Error: 900 0"), (5, "Begin", "req 4 esi"), (4, "Begin", "req 2 restart"),
    (4, "Link", "req 6 esi"), (4, "Link", "req 5 esi"), (6, "Begin", "req 4 esi"), (6, "Timestamp", "Process: 99 0"),
    (6, "Link", "req 4 esi"), (5, "Timestamp", "Resp: 101.25 0"), (5, "End", ""), (3, "End", ""), (6, "End", ""),
    (7, "Begin", "req 7 esi"), (7, "Link", "bereq 0 fetch"), (4, "Timestamp", "Resp: 102.500000001 0"),
    (4, "Link", "bereq 8 pass"), (4, "End", ""), (7, "Timestamp", "Resp: -1 0"), (8, "End", ""),
    (7, "Timestamp", "Resp 200 0"), (4, "Begin", "req 8 rxreq"), (7, "End", ""),
]

# Two sessions with their requests, claims in a ring, numbers that are used again, and a pipe.
SESSIONS = [
    (1, "Begin", "sess 0 HTTP/1"), (1, "Link", "req 2 rxreq"), (9, "Begin", "sess 0 HTTP/1"),
    (2, "Begin", "req 1 rxreq"), (2, "Timestamp", "Start: 10.000000000000000001 0"), (2, "Link", "bereq 3 fetch"),
    (9, "Link", "req 4 rxreq"), (4, "Link", "bereq 5 pipe"), (5, "Link", "req 6 esi"), (6, "Link", "req 4 esi"),
    (3, "Begin", "bereq 2 fetch"), (3, "End", ""), (2, "End", ""), (1, "Link", "req 2 rxreq"),
    (2, "Begin", "req 1 rxreq"), (1, "End", ""), (2, "Timestamp", "Resp: 12.000000000000000001 0"), (2, "End", ""),
    (6, "Timestamp", "Start: 12.000000000000000002 0"), (4, "Begin", "req 9 rxreq"), (4, "End", ""),
    (5, "Begin", "bereq 4 pipe"), (5, "End", ""), (6, "End", ""), (9, "Begin", "req 9 esi"),
    (10, "Begin", "req 0 rxreq"), (9, "End", ""), (10, "Link", "sess 1 x"), (10, "Timestamp", "Start: 11 0"),
    (10, "End", ""),
]

# A log, the options of each run, and its sessions.
LOGS = [(REQUESTS, ["-L", "3", "-T", "2"], set()), (SESSIONS, [], {1, 9})]
GROUPINGS = ["raw", "vxid", "request", "session"]


def numbered(log):
    """The records with their places behind their payloads."""
    return [(vxid, tag, f"{payload} {place}".strip()) for place, (vxid, tag, payload) in enumerate(log)]


def printed(program, grouping, options, records):
    """What the program prints: a VXID, a tag and a payload for each line of a record."""
    units = (vslog.unit(vxid, "c", [(tag, payload.encode())]) for vxid, tag, payload in records)
    words = [program, "varnishlog", "-g", grouping, *options, "-r", "-"]
    came = run(words, stdin=vslog.HEADER + b"".join(units))
    if came.status:
        raise Failed(f"-g {grouping} of {len(records)} records: status {came.status}")
    lines, vxid = [], None
    for line in came.stdout.decode().splitlines():
        if grouping == "raw":
            lines.append((int(line[:10]), line[11:25].strip(), line[28:]))
        elif line.startswith("*"):
            vxid = int(line.split(">>")[1])
        elif line:
            lines.append((vxid, line[4:18].strip(), line[19:]))
    return lines


def is_reported(grouping, vxid, sessions):
    """Raw grouping reports all, each other none of no transaction, and request grouping none of a session."""
    return grouping == "raw" or (vxid != 0 and not (grouping == "request" and vxid in sessions))


def check_prefix(program, grouping, options, sessions, records):
    """Fails where a record that the grouping reports is not printed once, or anything else is."""
    lines = printed(program, grouping, options, records)
    forced = sum(tag == "VSL" for _, tag, _ in lines)
    wanted = [record for record in records if is_reported(grouping, record[0], sessions)]
    added = [line for line in lines if line[1] == "VSL" or line[2] == "synth"]
    got = [line for line in lines if line not in added]
    if sorted(got) != sorted(wanted) or len(added) != 2 * forced:
        raise Failed(f"-g {grouping} of {len(records)} records: {got} and {added}, not {wanted}")


def check(program):
    runs = 0
    for log, options, sessions in LOGS:
        records = numbered(log)
        for grouping in GROUPINGS:
            for count in range(len(records) + 1):
                check_prefix(program, grouping, options, sessions, records[:count])
                runs += 1
    return f"{runs} of them"
