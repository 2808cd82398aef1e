"""Times `varnishncsa` over the real log again and again, as top.py does varnishtop: in its default format, with `-b`,
and in a format with each kind of formatter. The peak of memory goes with what is pending and not with the log.
"""

from benches.top import over_many_records

FORMAT = "%h %m %U%q %s %b %D %{%F %T}t %{usec_frac}t %{Host}i %{Varnish:handling}x %{VSL:Timestamp:Process[2]}x"


def bench(program, _):
    commands = [["varnishncsa"], ["varnishncsa", "-b"], ["varnishncsa", "-F", FORMAT]]
    over_many_records(program, commands, 0.6)
