#!/usr/bin/env bash
# Checks what completion/vtools.bash offers for command lines, row by row, in bash without a terminal. A row is a
# command line with `|` at the cursor, `=>`, and what is offered, in order, with `_` for a blank; `OPTIONS TOOL` stands
# for all that the tool takes, by the rows of the source, and `TAGS` for the names of all tags, by FORMATS. In a query
# and in a format a sole word in a quote that is open is offered twice, the second time with a blank.
set -euo pipefail
cd "$(dirname "${BASH_SOURCE[0]}")/.."
LC_ALL=C

fail() {
    echo "completion: $1" >&2
    exit 1
}

# shellcheck source=completion/vtools.bash
source completion/vtools.bash
for program in vtools vslog; do
    [ "$(complete -p $program)" = "complete -F _vtools $program" ] || fail "_vtools doesn't complete $program"
done

listed=$(tools/options.py)
tags=$(PYTHONPATH=tools/reference python3 -B -c 'import vslog; print(*sorted(vslog.TAGS[1:]))')
work=$(mktemp -d)
trap 'rm -rf "$work"' EXIT
cd "$work"
mkdir folder
touch access.log at@one folder/log log log:old "my log" queries

# Takes a line apart as bash does: at blanks, and round the other characters of COMP_WORDBREAKS, outside of quotes. The
# cursor stands behind $2 characters of it.
take_apart() {
    local rest=$1 breaks=${COMP_WORDBREAKS//[$' \t\n\'"']/} fragment
    local word="^(([^ '\"\\$breaks]|\\\\.|'[^']*('|\$)|\"[^\"]*(\"|\$))+|[$breaks]+)"
    COMP_LINE=$1
    COMP_POINT=$2
    COMP_WORDS=()
    COMP_CWORD=-1
    while [ -n "$rest" ]; do
        [[ "$rest" =~ $word ]] || fail "can't take apart: $rest"
        fragment=${BASH_REMATCH[1]}
        COMP_WORDS+=("$fragment")
        rest=${rest#"$fragment"}
        if ((COMP_CWORD < 0 && COMP_POINT <= ${#1} - ${#rest})); then
            COMP_CWORD=$((${#COMP_WORDS[@]} - 1))
        fi
        rest=${rest#"${rest%%[! ]*}"}
    done
    if ((COMP_CWORD < 0)); then
        # behind a blank at the end
        COMP_CWORD=${#COMP_WORDS[@]}
        COMP_WORDS+=("")
    fi
}

# The options that a tool takes, in their order.
options_of() {
    awk -v tool="$1" '$1 == tool && $3 != "absent" { print $2 }' <<<"$listed" | sort | tr '\n' ' '
}

count=0
row_form='^([^|]*)\|(.*[^ ])? *=>( .*)?$'

# Checks the rows of standard input.
check_rows() {
    local row before behind wanted offered
    while IFS= read -r row; do
        [[ "$row" =~ $row_form ]] || fail "not a row: $row"
        before=${BASH_REMATCH[1]}
        behind=${BASH_REMATCH[2]}
        wanted=${BASH_REMATCH[3]# }
        [ "$wanted" != TAGS ] || wanted=$tags
        [[ "$wanted" != *"OPTIONS "* ]] || wanted=${wanted%OPTIONS *}$(options_of "${wanted#*OPTIONS }")
        take_apart "$before$behind" "${#before}"
        COMPREPLY=(unset)
        _vtools "${COMP_WORDS[0]}"
        offered=$(printf '%s\n' "${COMPREPLY[@]// /_}" | sort | tr '\n' ' ')
        [ "${offered% }" = "${wanted% }" ] || fail "$before| => ${offered% }, and not: $wanted"
        count=$((count + 1))
    done
}

COMP_WORDBREAKS=$' \t\n"\'@><=;|&(:'
check_rows <<'ROWS'
vtools | => --feed --gen --help --version convert varnishlog varnishncsa varnishstat varnishtop
vtools varnishn| => varnishncsa
vtools --v| => --version
vtools --help | =>
vtools convert | => access.log at@one folder log log:old my_log queries
vtools convert log q| => queries
vtools convert -| => --help
vtools --feed| => --feed
vtools --feed log --feed| => --feed --feed-first
vtools --feed-first -| => --feed --gen
vtools --gen 20,7 -| => OPTIONS vtools
vtools --feed | => access.log at@one folder log log:old my_log queries
vtools --feed log --feed q| => queries
vtools --feed varnishlog v| => varnishlog varnishncsa varnishstat varnishtop
vtools --ring | =>
vtools --gen | =>
vtools --gen 20,7 --ring 64 varnisht| => varnishtop
vtools varnishlog | => --help OPTIONS varnishlog
vtools --feed log --feed-first varnishncsa -| => OPTIONS varnishncsa
vtools varnishtop -| => --help OPTIONS varnishtop
vtools varnishstat -1 -| => -1 -f -j -l
vtools varnishlgo -| =>
vtools varnishlog -D| =>
vtools varnishlog --he| => --help
vtools varnishlog -b --he| =>
vtools --feed log varnishlog --he| =>
vtools varnishlog --help -| =>
vtools varnishlog log -| =>
vtools varnishncsa -i End -| =>
vtools varnishlog -bc| => -bc
vtools varnishlog -bcj| =>
vtools varnishlog -g | => raw request session vxid
vtools varnishncsa -g | => request vxid
vtools varnishtop -1bgr| => -1bgraw -1bgrequest
vtools varnishlog -g r|aw -r log => raw request
vtools varnishlog -graw -a| => -a
vtools varnishlog -i ReqU| => ReqURL ReqUnset
vtools varnishlog -iVCL_c| => -iVCL_call
vtools varnishlog -x End,Req*,Hit| => End,Req*,Hit End,Req*,HitMiss End,Req*,HitPass
vtools varnishlog -i 'Req*,Vf| => Req*,VfpAcct
vtools varnishlog -i Req\*,Vf| => Req\*,VfpAcct
vtools varnishtop -1 -x "| => TAGS
vtools varnishlog -I ReqU| => ReqURL ReqUnset
vtools varnishlog -X 'End,Vf| => End,VfpAcct
vtools varnishlog -I ReqHeader:| =>
vtools varnishlog -I 'ReqHeader:^H| =>
vtools varnishlog -I ReqHeader:^Host: -C| => -C
vtools varnishlog -k | =>
vtools varnishlog -L 1| =>
vtools varnishlog -T | =>
vtools varnishlog -q Vf| => VfpAcct
vtools varnishlog -q 'Vf| => VfpAcct VfpAcct_
vtools varnishlog -q 'n| => not not_
vtools varnishlog -q 'not Vf| => not_VfpAcct not_VfpAcct_
vtools varnishlog -q '(Vf| => (VfpAcct (VfpAcct_
vtools varnishlog -q '{2+}ReqURL,Vf| => {2+}ReqURL,VfpAcct {2+}ReqURL,VfpAcct_
vtools varnishlog -q 'ReqURL | => ReqURL_!= ReqURL_!~ ReqURL_< ReqURL_<= ReqURL_== ReqURL_> ReqURL_>= ReqURL_and ReqURL_eq ReqURL_ne ReqURL_or ReqURL_~
vtools varnishlog -q 'Timestamp:Resp[2] >| => Timestamp:Resp[2]_> Timestamp:Resp[2]_>=
vtools varnishlog -q Timestamp:Resp[2]\ n| => Resp[2]\_ne
vtools varnishlog -q 'RespStatus >= | =>
vtools varnishlog -q 'ReqURL ~ a| =>
vtools varnishlog -q 'RespStatus >= 500 | => RespStatus_>=_500_and RespStatus_>=_500_or
vtools varnishlog -q 'RespStatus >= 500 and Vf| => RespStatus_>=_500_and_VfpAcct RespStatus_>=_500_and_VfpAcct_
vtools varnishlog -q 'ReqURL ~ "a Vf| =>
vtools varnishlog -q 'ReqURL ~ "a b" o| => ReqURL_~_"a_b"_or ReqURL_~_"a_b"_or_
vtools varnishlog -q '(Hit or Link) a| => (Hit_or_Link)_and (Hit_or_Link)_and_
vtools varnishlog -bq'Vf| => VfpAcct VfpAcct_
vtools varnishlog -q 'RespStatus >= 500' -v| => -v
vtools varnishncsa -F %{V| => %{VCL_Log: %{VSL: %{Varnish:handling}x %{Varnish:hitmiss}x %{Varnish:side}x %{Varnish:time_firstbyte}x %{Varnish:vxid}x
vtools varnishncsa -F '%h %{Varnish:h| => %h_%{Varnish:handling}x %h_%{Varnish:hitmiss}x
vtools varnishncsa -F %{Varnish:v| => vxid}x
vtools varnishncsa -F '%h| =>
vtools varnishncsa -F '%{Host}i| =>
vtools varnishncsa -F '%h "%{Host}i" %{VSL:Vf| => %h_"%{Host}i"_%{VSL:VfpAcct}x %h_"%{Host}i"_%{VSL:VfpAcct}x_
vtools varnishncsa -F '%h %{us| => %h_%{usec_frac}t %h_%{usec}t
vtools varnishncsa -F '%{Varnish:handling}x -w' -w a| => access.log at@one
vtools varnishlog -dbr | => access.log at@one folder log log:old my_log queries
vtools varnishlog -rfo| => -rfolder/
vtools varnishlog -r folder/| => folder/log
vtools varnishlog -r log:| => old
vtools varnishlog -r "log:| => log:old
vtools varnishlog -r at@| => @one
vtools varnishlog -r my\ | => my_log
vtools varnishlog -Q 'my l| => my_log
vtools varnishlog -Q 'my\| =>
vtools varnishlog -w lo| => log log:old
vtools varnishstat -f MAIN.cache_h| => MAIN.cache_hit MAIN.cache_hitmiss MAIN.cache_hitpass
vtools varnishstat -1f MAIN.sh| => MAIN.shm_cont MAIN.shm_cycles MAIN.shm_flushes MAIN.shm_records MAIN.shm_writes
vtools varnishstat -r | =>
vtools varnishtop -f MAIN| =>
vtools varnishncsa -r log >ac| => access.log
vtools varnishlog 2>log -r q| => queries
vtools varnishlog -r log:2>log -v| => -v
vslog | => access.log at@one folder log log:old my_log queries
vslog -| => --help --strict --version -a -q -t -w
vslog --s| => --strict
vslog --strict -| => --strict -a -q -t -w
vslog --help=| =>
vslog --help -| =>
vslog -tq| => -tq
vslog -tv| =>
vslog -v l| =>
vslog -tw l| => log log:old
vslog -taw log -q| => -q
vslog -wfo| => -wfolder/
vslog -w log q| => queries
vslog - -w q| => queries
vslog log -w folder/| => folder/log
vslog -t >ac| => access.log
vslog -q <log -w q| => queries
./vslog -ta| => -ta
ROWS

# with `,`, and without `:`
COMP_WORDBREAKS=$' \t\n"\'><=;|&(,'
check_rows <<'ROWS'
vtools varnishlog -x End,Req*,Hit| => Hit HitMiss HitPass
vtools varnishlog -i End,V| -r log => VCL_Error VCL_Log VCL_acl VCL_call VCL_return VCL_trace VCL_use VSL VfpAcct
vtools --gen 20,7 varnisht| => varnishtop
vtools varnishlog -r log:| => log:old
vtools varnishncsa -F %{Varnish:v| => %{Varnish:vxid}x
ROWS

echo "completion: ok, $count rows"
