"""Asks bash what completion/ offers, and zsh and fish where they are there, and whether completion/ is as it is made.

For bash there is a script, tools/check_completion.sh, with rows of its own, because bash cuts words in its own way.
"""

import os
import pty
import re
import select
import shutil
import subprocess
import time

import completion
from checks.running import MOST_SECONDS, TOP, Failed, run, temporary_folder

# A command line up to the cursor, and each last word that it can have; where these may have blanks, with `|` between.
ROWS = """
vtools v => varnishlog varnishncsa varnishstat varnishtop
vtools - => --feed --gen --help --version
vtools --feed log - => --feed --feed-first --gen --reclen --ring --turns
vtools --feed q => queries
vtools --feed log varnisht => varnishtop
vtools --gen 20,7 --ring varnishlog varnishs => varnishstat
vtools varnishstat - => --help -1 -f -j -l
vtools varnishstat -1 --he =>
vtools varnishlog -r q => queries
vtools varnishlog -g r => raw request
vtools varnishncsa -g r => request
vtools varnishtop -1bgr => -1bgraw -1bgrequest
vtools varnishlog -i ReqU => ReqURL ReqUnset
vtools varnishlog -iVCL_c => -iVCL_call
vtools varnishlog -x 'End,Hit => End,Hit | End,HitMiss | End,HitPass
vtools varnishlog -I ReqU => ReqURL ReqUnset
vtools varnishlog -I 'ReqHeader:H =>
vtools varnishlog -k 1 =>
vtools varnishlog -q Vf => VfpAcct
vtools varnishlog -q 'not (Vf => not (VfpAcct
vtools varnishlog -q '{2+}ReqURL,Vf => {2+}ReqURL,VfpAcct
vtools varnishlog -q 'Timestamp:Resp[2] > => Timestamp:Resp[2] > | Timestamp:Resp[2] >=
vtools varnishlog -q 'ReqURL n => ReqURL ne
vtools varnishlog -q 'ReqURL ~ a =>
vtools varnishlog -q 'RespStatus >= 500 a => RespStatus >= 500 and
vtools varnishlog -q 'RespStatus >= 500 and Vf => RespStatus >= 500 and VfpAcct
vtools varnishlog -q 'ReqURL ~ "a b" o => ReqURL ~ "a b" or
vtools varnishlog -q 'ReqURL ~ "a Vf =>
vtools varnishncsa -F '%h %{Varnish:h => %h %{Varnish:handling}x | %h %{Varnish:hitmiss}x
vtools varnishncsa -F '%h =>
vtools varnishncsa -F '%h %{VSL:Vf => %h %{VSL:VfpAcct}x
vtools varnishstat -f MAIN.cache_h => MAIN.cache_hit MAIN.cache_hitmiss MAIN.cache_hitpass
vtools varnishtop -f MAIN.c =>
vslog q => queries
vslog - => --help --strict --version -a -q -t -w
vslog -q - => --strict -a -q -t -w
vslog -tw q => queries
"""
FISH = """
set fish_complete_path $argv[1] $fish_complete_path
for line in $argv[2..-1]
    complete -C $line
    echo END
end
"""
# what is offered goes to a file, each with what stands before it in its word
ZSH = """
fpath=(COMPLETION $fpath)
autoload -U compinit
compinit -u -D
compadd() {
    local -a hits
    if [[ ${@[1,(i)(-|--)]} != *-(O|A|D)\\ * ]]; then
        builtin compadd -A hits "$@"
        print -rl -- $IPREFIX$^hits >>OFFERED
    fi
    builtin compadd "$@"
}
ended() {
    print END >>OFFERED
    comppostfuncs=(ended)
}
ended
"""


def of_fish(lines, folder):
    """What fish offers for each of these lines. It completes no program that it doesn't find."""
    programs = folder / ".bin"
    programs.mkdir()
    for name in "vtools", "vslog":
        (programs / name).touch(0o755)
    env = ["env", f"HOME={folder}", f"PATH={programs}:{os.environ['PATH']}"]
    came = run([*env, "fish", "--no-config", "-c", FISH, str(TOP / "completion"), *lines], folder)
    *found, rest = came.stdout.decode().split("END\n")
    if came.stderr or rest or len(found) != len(lines):
        raise Failed(f"fish: {came.stderr.decode()}")
    return [[offered.split("\t")[0] for offered in each.splitlines()] for each in found]


def of_zsh(lines, folder):
    """What zsh offers for each of these lines, at a terminal."""
    setup, offered, found = folder / ".setup", folder / ".offered", []
    setup.write_text(ZSH.replace("COMPLETION", str(TOP / "completion")).replace("OFFERED", str(offered)))
    ours, its = pty.openpty()
    with subprocess.Popen(["zsh", "-f", "-i"], cwd=folder, stdin=its, stdout=its, stderr=its, start_new_session=True,
                          env={**os.environ, "HOME": str(folder), "TERM": "dumb", "LC_ALL": "C"}) as zsh:
        try:
            for keys in [f"source {setup}\n", *[f"{line}\t" for line in lines]]:
                offered.write_text("")
                os.write(ours, f"\x15{keys}".encode())
                until, shown = time.monotonic() + MOST_SECONDS, b""
                while not (said := offered.read_text()).endswith("END\n"):
                    if time.monotonic() > until:
                        raise Failed(f"zsh: {keys!r}: nothing came: {shown[-500:]!r}")
                    if select.select([ours], [], [], 0.01)[0]:
                        shown += os.read(ours, 65536)
                found.append(said.splitlines()[:-1])
        finally:
            zsh.kill()
            os.close(ours)
            os.close(its)
    return found[1:]


def check_rows(shell, offered_by):
    """Checks the rows in a shell, and answers how many there are."""
    rows = [row.partition(" =>") for row in ROWS.strip().splitlines()]
    with temporary_folder() as folder:
        (folder / "log").touch()
        (folder / "queries").touch()
        found = offered_by([line for line, _, _ in rows], folder)
    for (line, _, wanted), offered in zip(rows, found):
        words = {word.strip() for word in (wanted.split("|") if "'" in line else wanted.split())} - {""}
        got = {word.strip() for word in offered} - {""}
        if got != words:
            raise Failed(f"{shell}: {line} => {sorted(got)}, not {sorted(words)}")
    return len(rows)


def check(_):
    for path, text in completion.all_made():
        if path.read_text() != text:
            raise Failed(f"{path.relative_to(TOP)} is not what `tools/completion.py --write` writes")
    came = run([str(TOP / "tools/check_completion.sh")])
    if came.status:
        raise Failed(came.stderr.decode().strip() or f"status {came.status}")
    counts = {"bash": int(re.search(r"(\d+) rows", came.stdout.decode())[1])}
    for shell, offered_by in {"zsh": of_zsh, "fish": of_fish}.items():
        if shutil.which(shell):
            counts[shell] = check_rows(shell, offered_by)
    missing = "".join(f"; no {shell} is there" for shell in ("zsh", "fish") if shell not in counts)
    return ", ".join(f"{count} rows in {shell}" for shell, count in counts.items()) + missing
