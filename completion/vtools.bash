# Completes command lines of vtools and vslog in bash, 4.3 or later. It needs no package. Read it with `source`, or
# install it where the package bash-completion finds it by its name, once for each program.

# What stands between two comments is made by tools/completion.py: nobody writes there.

# Gives in `takes` what each option of the tool $1 takes, or without a tool each option before it: `flag` takes nothing,
# and of a `text` nothing is known. An unknown tool has no options. vslog is a tool here.
_vtools_options() {
    takes=()
    case $1 in
    # made by tools/completion.py: options
    "")
        takes=(
            [--feed]=file [--gen]=text [--feed-first]=flag [--turns]=text [--ring]=text [--reclen]=text
        )
        ;;
    varnishlog)
        takes=(
            [-r]=file [-g]=grouping [-L]=text [-T]=text [-q]=query [-Q]=file [-k]=text [-b]=flag [-c]=flag [-E]=flag
            [-C]=flag [-d]=flag [-i]=tag [-x]=tag [-I]=rule [-X]=rule [-w]=file [-a]=flag [-v]=flag [-A]=flag
        )
        ;;
    varnishncsa)
        takes=(
            [-r]=file [-g]=access_grouping [-L]=text [-T]=text [-q]=query [-Q]=file [-k]=text [-b]=flag [-c]=flag
            [-E]=flag [-C]=flag [-d]=flag [-w]=file [-a]=flag [-F]=format
        )
        ;;
    varnishtop)
        takes=(
            [-r]=file [-g]=grouping [-L]=text [-T]=text [-q]=query [-Q]=file [-k]=text [-b]=flag [-c]=flag [-E]=flag
            [-C]=flag [-d]=flag [-i]=tag [-x]=tag [-I]=rule [-X]=rule [-1]=flag [-f]=flag
        )
        ;;
    varnishstat)
        takes=(
            [-1]=flag [-j]=flag [-l]=flag [-f]=counter
        )
        ;;
    convert)
        takes=()
        ;;
    vslog)
        takes=(
            [-t]=flag [-w]=file [-a]=flag [-q]=flag [--strict]=flag
        )
        ;;
    # made until here
    esac
}

# Gives in `words` the words of a kind.
_vtools_words() {
    case $1 in
    option) words=${!takes[*]} ;;
    alone) words="--help --version" ;;
    behind_tool) words="--help" ;;
    criterion)
        _vtools_words tag
        words+=" not"
        ;;
    operator)
        _vtools_words comparison
        words+=" and or"
        ;;
    joint) words="and or" ;;
    record_formatter)
        local tag formatters=""
        _vtools_words tag
        for tag in $words; do
            formatters+="%{VSL:$tag}x "
        done
        words=$formatters
        ;;
    # made by tools/completion.py: words
    tool)
        words='varnishlog varnishncsa varnishtop varnishstat convert'
        ;;
    naming)
        words='convert'
        ;;
    feed)
        words='--feed --gen'
        ;;
    grouping)
        words='raw vxid request session'
        ;;
    access_grouping)
        words='vxid request'
        ;;
    tag)
        words='Debug Error CLI SessOpen SessClose SessError BackendOpen BackendClose Backend_health HttpGarbage Proxy
        ProxyGarbage Length FetchError Fetch_Body BogoHeader LostHeader TTL VCL_acl VCL_call VCL_trace VCL_return
        VCL_use VCL_Log VCL_Error ReqStart ReqAcct BereqAcct PipeAcct VfpAcct Hit HitMiss HitPass ExpBan ExpKill
        WorkThread ESI_xmlerror Hash Gzip Storage Timestamp Begin Link End VSL Witness Filters Notice H2RxHdr H2RxBody
        H2TxHdr H2TxBody ReqMethod ReqURL ReqStatus ReqReason ReqProtocol ReqHeader ReqUnset ReqLost RespMethod
        RespURL RespStatus RespReason RespProtocol RespHeader RespUnset RespLost BereqMethod BereqURL BereqStatus
        BereqReason BereqProtocol BereqHeader BereqUnset BereqLost BerespMethod BerespURL BerespStatus BerespReason
        BerespProtocol BerespHeader BerespUnset BerespLost ObjMethod ObjURL ObjStatus ObjReason ObjProtocol ObjHeader
        ObjUnset ObjLost'
        ;;
    counter)
        words='MAIN.sess_conn MAIN.client_req MAIN.cache_hit MAIN.cache_hitpass MAIN.cache_hitmiss MAIN.cache_miss
        MAIN.backend_conn MAIN.backend_req MAIN.fetch_failed MAIN.s_pipe MAIN.s_pass MAIN.s_synth MAIN.s_req_hdrbytes
        MAIN.s_req_bodybytes MAIN.s_resp_hdrbytes MAIN.s_resp_bodybytes MAIN.shm_records MAIN.shm_writes
        MAIN.shm_flushes MAIN.shm_cont MAIN.shm_cycles'
        ;;
    formatter)
        words='%h %l %u %t %{sec}t %{msec}t %{usec}t %{msec_frac}t %{usec_frac}t %r %m %U %q %H %s %b %I %O %{Host}i
        %{Referer}i %{User-agent}i %D %T %{Varnish:time_firstbyte}x %{Varnish:hitmiss}x %{Varnish:handling}x
        %{Varnish:side}x %{Varnish:vxid}x %{VCL_Log: %{VSL:'
        ;;
    comparison)
        words='== != < <= > >= eq ne ~ !~'
        ;;
    # made until here
    esac
}

# Gives in `typed` the words of the command line up to the cursor, of which the last may be empty. Bash has cut them at
# the characters of COMP_WORDBREAKS too; only operators of `redirection` stay by themselves, with their number.
_vtools_typed() {
    local rest=${COMP_LINE:0:COMP_POINT} behind fragment index number='^[0-9]+$'
    typed=()
    for ((index = 0; index <= COMP_CWORD; index++)); do
        behind=${rest#"${rest%%[![:space:]]*}"}
        fragment=${COMP_WORDS[index]}
        ((index < COMP_CWORD)) || fragment=$behind
        if ((index == 0)) || [[ $behind != "$rest" || ${typed[-1]} =~ $redirection ]] ||
            [[ $fragment =~ $redirection && ! ${typed[-1]} =~ $number ]]; then
            typed+=("$fragment")
        else
            typed[-1]+=$fragment
        fi
        rest=${behind#"$fragment"}
    done
}

# Reads a word of letters of options: gives in `wanted` the option that takes a value, if one does, and in `front` how
# many characters stand before the value. It fails where the word has a letter that the tool doesn't take.
_vtools_letters() {
    local option
    wanted=""
    front=1
    [[ $1 == -?* ]] || return 1
    while ((front < ${#1})); do
        option=-${1:front:1}
        front=$((front + 1))
        case ${takes[$option]-} in
        "") return 1 ;;
        flag) ;;
        *)
            wanted=$option
            return 0
            ;;
        esac
    done
}

# Gives in `plain` a text without its quotes, and in `kept` how many characters of it readline keeps and replaces none
# of: up to a quote that is open, or else up to the last character of COMP_WORDBREAKS outside of quotes. In `quote` is
# the quote that is open.
_vtools_plain() {
    local character opened=0 at
    plain=""
    kept=0
    quote=""
    for ((at = 0; at < ${#1}; at++)); do
        character=${1:at:1}
        if [[ $character == "\\" && $quote != "'" ]]; then
            at=$((at + 1))
            plain+=${1:at:1}
        elif [[ -n $quote && $character == "$quote" ]]; then
            quote=""
        elif [[ -z $quote && $character == [\"\'] ]]; then
            quote=$character
            opened=$((at + 1))
        else
            plain+=$character
            if [[ -z $quote && ${COMP_WORDBREAKS-} == *"$character"* ]]; then
                kept=$((at + 1))
                [[ $character != @ ]] || kept=$at
            fi
        fi
    done
    [[ -z $quote ]] || kept=$opened
}

# Gives in `kind` what can stand in a query behind the text $1: a `criterion`, an `operator`, a `text` as operand, or
# what is the `joint` of two tests.
_vtools_behind() {
    local rest=$1 token="^[[:space:]]*(([^[:space:]()\"']|\"[^\"]*\"|'[^']*')+|[()])(.*)$"
    kind=criterion
    while [[ $rest =~ $token ]]; do
        rest=${BASH_REMATCH[3]}
        case $kind:${BASH_REMATCH[1]} in
        *:and | *:or | criterion:not | criterion:\() kind=criterion ;;
        text:* | *:\)) kind=joint ;;
        criterion:*) kind=operator ;;
        operator:*) kind=text ;;
        esac
    done
    # a quote is open
    [[ $rest != *[![:space:]]* ]] || kind=text
}

# Offers what the last word of `typed` can become when it has a value of kind $2 behind its first $1 characters.
_vtools_offer() {
    local front=$1 kind=$2 word=${typed[-1]} words="" plain kept quote names=() name offered before="" replaced=""
    local begun='(%|%\{[^}]*)$' text='[[:alnum:]}]$'
    name=${word:front}
    case $kind in
    flag | text) return 0 ;;
    rule)
        # a pattern may stand behind a taglist
        [[ $name != *:* ]] || return 0
        kind=tag
        name=${name##*,}
        ;;
    tag)
        # the last name of a taglist
        name=${name##*,}
        ;;
    query)
        name=${name##*[[:space:]()]}
        _vtools_plain "${word:front:${#word}-front-${#name}}"
        _vtools_behind "$plain"
        [[ $kind != criterion ]] || name=${name##*[,\}]}
        ;;
    format)
        kind=formatter
        if [[ $name =~ $begun ]]; then
            name=${BASH_REMATCH[1]}
            [[ $name != "%{VSL:"* ]] || kind=record_formatter
        elif [[ $name =~ $text ]]; then
            return 0
        else
            name=""
        fi
        ;;
    esac
    front=$((${#word} - ${#name}))

    _vtools_plain "$name"
    if [[ $kind == file ]]; then
        mapfile -t names < <(compgen -f -- "$plain")
        compopt -o filenames 2>/dev/null || :
    else
        _vtools_words "$kind"
        for offered in $words; do
            [[ $offered != "$plain"* ]] || names+=("$offered")
        done
    fi

    _vtools_plain "$word"
    if [[ ${#names[@]} == 1 && $2 == @(query|format) ]]; then
        compopt -o nospace 2>/dev/null || :
        # of two readline doesn't close the quote
        [[ -z $quote ]] || names+=("${names[0]} ")
    fi
    if ((kept < front)); then
        before=${word:kept:front-kept}
    else
        _vtools_plain "${word:front:kept-front}"
        replaced=$plain
    fi
    for name in "${names[@]}"; do
        offered=$before${name#"$replaced"}
        if [[ $kind == file && $offered != "$name" && -d $name ]]; then
            # readline doesn't see that this is a folder
            offered+=/
            compopt -o nospace 2>/dev/null || :
        fi
        COMPREPLY+=("$offered")
    done
}

# Whether the tool takes names of files that stand behind no option.
_vtools_has_names() {
    local words=""
    _vtools_words naming
    [[ " vslog $words " == *" $tool "* ]]
}

# Gives in COMPREPLY what the word at the cursor can become, in a command line of the program $1. Behind an option that
# is refused nothing is offered.
_vtools() {
    local IFS=$' \t\n' typed=() tool="" wanted="" front=0 word words="" kind=option
    local is_target=false is_fed=false
    local redirection='^[0-9]*[<>][<>&|]*$'
    local -A takes=()
    COMPREPLY=()
    [[ ${1##*/} != vslog ]] || tool=vslog
    _vtools_options "$tool"
    _vtools_typed
    ((${#typed[@]} > 1)) || return 0

    for word in "${typed[@]:1:${#typed[@]}-2}"; do
        if $is_target; then
            is_target=false
        elif [[ $word =~ $redirection ]]; then
            is_target=true
        elif [[ -n $wanted ]]; then
            wanted=""
        elif [[ $word == --* && -n ${takes[$word]-} ]]; then
            [[ ${takes[$word]} == flag ]] || wanted=$word
            _vtools_words feed
            [[ " $words " != *" $word "* ]] || is_fed=true
        elif [[ $word == -?* ]]; then
            _vtools_letters "$word" || return 0
            ((front == ${#word})) || wanted=""
        elif [[ -z $tool ]]; then
            tool=$word
            _vtools_options "$tool"
        elif ! _vtools_has_names; then
            return 0
        fi
    done

    word=${typed[-1]}
    if $is_target; then
        _vtools_offer 0 file
    elif [[ -n $wanted ]]; then
        _vtools_offer 0 "${takes[$wanted]}"
    elif _vtools_letters "$word" && ((${#word} > 2)); then
        if ((front < ${#word})); then
            _vtools_offer "$front" "${takes[$wanted]}"
        else
            COMPREPLY=("$word")
        fi
    elif [[ $word != -* ]] && _vtools_has_names; then
        _vtools_offer 0 file
    else
        [[ -n $tool ]] || _vtools_offer 0 tool
        # what is said of feeds is offered behind one
        [[ -n $tool ]] || $is_fed || kind=feed
        _vtools_offer 0 "$kind"
        case ${#typed[@]}:$tool in
        2:*) _vtools_offer 0 alone ;;
        3:"${typed[1]}") ((${#takes[@]} == 0)) && ! _vtools_has_names || _vtools_offer 0 behind_tool ;;
        esac
    fi
    return 0
}

complete -F _vtools vtools vslog
