"""Converts each log file that lies here, and compares what each tool prints of both files."""

import vslog
from checks.running import TOP, Failed, run, same_run, shown, temporary_folder

FOLDERS = ["cases", "examples"]
HEADERS = {version.header for version in vslog.VERSIONS}
PRINTED = [
    *[["varnishlog", "-g", grouping] for grouping in ("raw", "vxid", "request", "session")],
    ["varnishlog", "-q", "RespStatus >= 400 or BerespStatus >= 400"], ["varnishlog", "-i", "ReqURL,RespStatus"],
    ["varnishncsa", "-c", "-b"], ["varnishtop", "-1"], ["varnishtop", "-1", "-i", "ReqURL"],
]


def logs():
    """The files that begin as log files do."""
    for folder in FOLDERS:
        for path in sorted((TOP / folder).rglob("*")):
            if path.is_file() and path.read_bytes()[:8] in HEADERS:
                yield path


def same_prints(program, log, made):
    """Compares what is printed of a whole log and of the one that was made of it: how many runs there were."""
    for words in PRINTED:
        same_run(f"{shown(words)} of {log}, converted", run([program, *words, "-r", str(log)]),
                 run([program, *words, "-r", str(made)]))
    return len(PRINTED)


def check(program):
    """Checks that a whole log prints the same once it is converted, and that one that was converted stays as it is."""
    files, whole, runs = 0, 0, 0
    with temporary_folder() as folder:
        made, again = folder / "made", folder / "again"
        for log in logs():
            came = run([program, "convert", str(log), str(made)])
            if came.status not in (0, 1) or (came.status == 0 and came.stderr):
                raise Failed(f"convert {log}: status {came.status}")
            if run([program, "convert", str(made), str(again)]).status or made.read_bytes() != again.read_bytes():
                raise Failed(f"convert {log}: what was made of it is no whole log")
            files, runs = files + 1, runs + 2
            if came.status == 0:
                whole, runs = whole + 1, runs + same_prints(program, log, made)
    if not 10 <= whole < files:
        raise Failed(f"{whole} whole logs of {files}")
    return f"{files} log files, {whole} of them whole, {runs} command lines"
