# Completes command lines of vtools in fish, 3.1 or later. It lies in a folder of fish_complete_path, under this name.

# What stands between two comments is made by tools/completion.py: nobody writes there.

# made by tools/completion.py: words
set -g __vtools_feeds \
    --feed --gen
set -g __vtools_groupings \
    raw\t'takes each record by itself, in the order of the log' \
    vxid\t'groups records by transaction' \
    request\t'groups a request with all that it caused, as its fetch and its ESI parts' \
    session\t"groups a client's session with all of its requests"
set -g __vtools_access_groupings \
    vxid\t'groups records by transaction' \
    request\t'groups a request with all that it caused, as its fetch and its ESI parts'
set -g __vtools_tags \
    Debug Error CLI SessOpen SessClose SessError BackendOpen BackendClose Backend_health HttpGarbage Proxy \
    ProxyGarbage Length FetchError Fetch_Body BogoHeader LostHeader TTL VCL_acl VCL_call VCL_trace VCL_return VCL_use \
    VCL_Log VCL_Error ReqStart ReqAcct BereqAcct PipeAcct VfpAcct Hit HitMiss HitPass ExpBan ExpKill WorkThread \
    ESI_xmlerror Hash Gzip Storage Timestamp Begin Link End VSL Witness Filters Notice H2RxHdr H2RxBody H2TxHdr \
    H2TxBody ReqMethod ReqURL ReqStatus ReqReason ReqProtocol ReqHeader ReqUnset ReqLost RespMethod RespURL RespStatus \
    RespReason RespProtocol RespHeader RespUnset RespLost BereqMethod BereqURL BereqStatus BereqReason BereqProtocol \
    BereqHeader BereqUnset BereqLost BerespMethod BerespURL BerespStatus BerespReason BerespProtocol BerespHeader \
    BerespUnset BerespLost ObjMethod ObjURL ObjStatus ObjReason ObjProtocol ObjHeader ObjUnset ObjLost
set -g __vtools_counters \
    MAIN.sess_conn\t'Sessions accepted' \
    MAIN.client_req\t'Good client requests received' \
    MAIN.cache_hit\t'Cache hits' \
    MAIN.cache_hitpass\t'Cache hits for pass' \
    MAIN.cache_hitmiss\t'Cache hits for miss' \
    MAIN.cache_miss\t'Cache misses' \
    MAIN.backend_conn\t'Backend conn. success' \
    MAIN.backend_req\t'Backend requests made' \
    MAIN.fetch_failed\t'Fetch failed (all causes)' \
    MAIN.s_pipe\t'Total pipe sessions seen' \
    MAIN.s_pass\t'Total pass-ed requests seen' \
    MAIN.s_synth\t'Total synthetic responses made' \
    MAIN.s_req_hdrbytes\t'Request header bytes' \
    MAIN.s_req_bodybytes\t'Request body bytes' \
    MAIN.s_resp_hdrbytes\t'Response header bytes' \
    MAIN.s_resp_bodybytes\t'Response body bytes' \
    MAIN.shm_records\t'SHM records' \
    MAIN.shm_writes\t'SHM writes' \
    MAIN.shm_flushes\t'SHM flushes due to overflow' \
    MAIN.shm_cont\t'SHM MTX contention' \
    MAIN.shm_cycles\t'SHM cycles through buffer'
set -g __vtools_formatters \
    '%h'\t'the address of the client or the backend' \
    '%l'\t'which is always missing' \
    '%u'\t'the user that authorized' \
    '%t'\t'when the transaction started' \
    '%{sec}t'\t'seconds since the epoch' \
    '%{msec}t'\t'milliseconds since the epoch' \
    '%{usec}t'\t'microseconds since the epoch' \
    '%{msec_frac}t'\t'the milliseconds in the second, in three digits' \
    '%{usec_frac}t'\t'the microseconds in the second, in six digits' \
    '%r'\t'the request line' \
    '%m'\tmethod \
    '%U'\t'the URL up to its query' \
    '%q'\t'the query of the URL with its question mark' \
    '%H'\tprotocol \
    '%s'\tstatus \
    '%b'\t"bytes of the response's body" \
    '%I'\t'bytes received' \
    '%O'\t'bytes sent' \
    '%{Host}i'\t'a header of the request' \
    '%{Referer}i'\t'a header of the request' \
    '%{User-agent}i'\t'a header of the request' \
    '%D'\t'how long it took, in microseconds' \
    '%T'\t'how long it took, in seconds' \
    '%{Varnish:time_firstbyte}x'\t'first byte' \
    '%{Varnish:hitmiss}x'\t'hit miss' \
    '%{Varnish:handling}x'\thandling \
    '%{Varnish:side}x'\tmark \
    '%{Varnish:vxid}x'\tvxid \
    '%{VCL_Log:'\t'log key' \
    '%{VSL:'\t'tag part'
set -g __vtools_comparisons \
    '==' '!=' '<' '<=' '>' '>=' eq ne '~' '!~'
set -g __vtools_valued \
    --feed --gen --turns --ring --reclen
# made until here

# Prints the tool that the words before the cursor's have, or nothing.
function __vtools_tool
    set -l is_value no
    set -l words (commandline -opc)
    for word in $words[2..-1]
        if test $is_value = yes
            set is_value no
        else if contains -- $word $__vtools_valued
            set is_value yes
        else if not string match -q -- '-*' $word
            echo $word
            return
        end
    end
end

# Whether the tool is $argv[1].
function __vtools_is
    set -l tool (__vtools_tool)
    test "$tool" = $argv[1]
end

# Whether no tool stands there.
function __vtools_is_before
    set -l tool (__vtools_tool)
    test -z "$tool"
end

# Whether no tool stands there, but an option that feeds.
function __vtools_is_fed
    __vtools_is_before; or return
    for word in (commandline -opc)
        contains -- $word $__vtools_feeds; and return
    end
    return 1
end

# Whether so many words stand before the cursor's, of which the first is the program.
function __vtools_has
    test (count (commandline -opc)) = $argv[1]
end

# Prints what the value of the option of letter $argv[1] has up to the cursor, without its quotes.
function __vtools_value
    set -l word (commandline -ct)
    string unescape -- "$word" | string replace -r -- "^-\w*?$argv[1]" ''
end

# Prints words behind the text $argv[1], of those that begin with $argv[2]. Of two fish leaves a quote open.
function __vtools_behind
    set -l found (string match -r -- '^'(string escape --style=regex -- $argv[2])'.*' $argv[3..-1])
    if test (count $found) = 1; and string match -qr '[\'"]' -- (commandline -ct)
        set -a found (string replace -r -- '\t.*' '' $found)' '
    end
    test (count $found) = 0; or printf '%s\n' $argv[1]$found
end

# Prints taglists, for the option of letter $argv[1].
function __vtools_tag
    set -l parts (string match -r -- '^(|.*,)[^,]*$' (__vtools_value $argv[1]))
    printf '%s\n' "$parts[2]"$__vtools_tags
end

# Prints the taglists in front of a pattern, for the option of letter $argv[1].
function __vtools_rule
    string match -q -- '*:*' (__vtools_value $argv[1]); or __vtools_tag $argv[1]
end

# Prints the groupings.
function __vtools_grouping
    printf '%s\n' $__vtools_groupings
end

# Prints the groupings of an access log.
function __vtools_access_grouping
    printf '%s\n' $__vtools_access_groupings
end

# Prints the counters.
function __vtools_counter
    printf '%s\n' $__vtools_counters
end

# Prints queries: with a criterion behind them, with what compares, or with what joins two tests.
function __vtools_query
    set -l parts (string match -r -- '^(|.*[\s()])([^\s()]*)$' (__vtools_value $argv[1]))
    set -l before "$parts[2]"
    set -l word "$parts[3]"
    set -l token '(?:[^\s()"\']|"[^"]*"|\'[^\']*\')+|[()]'
    # no more where a quote is open
    string replace -ar -- "$token" '' "$before" | string match -qr '\S'; and return

    set -l kind criterion
    for found in (string match -ar -- "$token" "$before")
        switch $kind:$found
            case '*:and' '*:or' criterion:not 'criterion:('
                set kind criterion
            case 'text:*' '*:)'
                set kind joint
            case 'criterion:*'
                set kind operator
            case 'operator:*'
                set kind text
        end
    end
    switch $kind
        case criterion
            set parts (string match -r -- '^(|.*[,}])([^,}]*)$' "$word")
            __vtools_behind "$before$parts[2]" "$parts[3]" $__vtools_tags not
        case operator
            __vtools_behind "$before" "$word" $__vtools_comparisons and or
        case joint
            __vtools_behind "$before" "$word" and or
    end
end

# Prints formats: with the formatter that has begun at their end, or else with each behind other text.
function __vtools_format
    set -l text (__vtools_value $argv[1])
    set -l parts (string match -r -- '^(|.*)(%|%\{[^}]*)$' "$text")
    if string match -q -- '%{VSL:*' "$parts[3]"
        __vtools_behind "$parts[2]" "$parts[3]" '%{VSL:'$__vtools_tags'}x'
    else if set -q parts[1]
        __vtools_behind "$parts[2]" "$parts[3]" $__vtools_formatters
    else if not string match -qr -- '[[:alnum:]}]$' "$text"
        __vtools_behind "$text" '' $__vtools_formatters
    end
end

complete -c vtools -f
complete -c vtools -n '__vtools_has 1' -l help -d 'prints what the program does'
complete -c vtools -n '__vtools_has 1' -l version -d 'prints which version it is'
# made by tools/completion.py: options
complete -c vtools -n __vtools_is_before -a varnishlog -d 'prints the records of a log file, a group of them when it is complete, or writes them as a log file'
complete -c vtools -n __vtools_is_before -a varnishncsa -d 'prints a line for each request, as a web server does in its access log'
complete -c vtools -n __vtools_is_before -a varnishtop -d 'counts equal records, and prints each once with its count when the log has ended'
complete -c vtools -n __vtools_is_before -a varnishstat -d 'prints counters of feeds, and takes no log file'
complete -c vtools -n __vtools_is_before -a convert -d 'writes the units of the log file IN as a log file OUT, in the form in which log files are written'
complete -c vtools -n __vtools_is_before -l feed -r -F -d 'feeds the listing FILE, lines as varnishlog -g raw prints them, at most 16 MiB'
complete -c vtools -n __vtools_is_before -l gen -x -d 'feeds N requests that are made from SEED, 1 to 100000 and 0 to 65536, behind the listings'
complete -c vtools -n __vtools_is_fed -l feed-first -d 'puts feed after feed into a ring, and then reads it'
complete -c vtools -n __vtools_is_fed -l turns -x -d 'draws from SEED, 0 to 65536, whose turn it is, that of a feed or of the reader'
complete -c vtools -n __vtools_is_fed -l ring -x -d 'words in a segment of the ring, 64 to 1048576'
complete -c vtools -n __vtools_is_fed -l reclen -x -d 'cuts payloads to N bytes, 16 to 4000'
complete -c vtools -n '__vtools_is varnishlog; and __vtools_has 2' -l help -d 'prints what the tool takes'
complete -c vtools -n '__vtools_is varnishlog' -s r -r -F -d 'reads the log file FILE'
complete -c vtools -n '__vtools_is varnishlog' -s g -x -a '(__vtools_grouping g)' -d 'which records are a group'
complete -c vtools -n '__vtools_is varnishlog' -s L -x -d 'keeps at most N transactions pending, 1 to 1000000'
complete -c vtools -n '__vtools_is varnishlog' -s T -x -d "force-completes a transaction that began more than N seconds before the log's time, 1 to 1000000"
complete -c vtools -n '__vtools_is varnishlog' -s q -x -a '(__vtools_query q)' -d 'takes only groups for which the query TEXT holds'
complete -c vtools -n '__vtools_is varnishlog' -s Q -r -F -d 'reads queries from FILE, one a line'
complete -c vtools -n '__vtools_is varnishlog' -s k -x -d 'takes the first N groups, shown or not, and reads no more, 1 to 999999999'
complete -c vtools -n '__vtools_is varnishlog' -s b -d 'shows requests to a backend, and no other transactions but those of -c and -E'
complete -c vtools -n '__vtools_is varnishlog' -s c -d "shows clients' requests, and no other transactions but those of -b and -E"
complete -c vtools -n '__vtools_is varnishlog' -s E -d 'the same as -c, with requests for ESI parts'
complete -c vtools -n '__vtools_is varnishlog' -s C -d 'asks patterns, and texts of queries, without regard to case'
complete -c vtools -n '__vtools_is varnishlog' -s d -d 'taken, and of no effect, because a log is read from its beginning anyway'
complete -c vtools -n '__vtools_is varnishlog' -s i -x -a '(__vtools_tag i)' -d 'shows records of these tags'
complete -c vtools -n '__vtools_is varnishlog' -s x -x -a '(__vtools_tag x)' -d 'hides records of these tags'
complete -c vtools -n '__vtools_is varnishlog' -s I -x -a '(__vtools_rule I)' -d 'shows records that RULE matches'
complete -c vtools -n '__vtools_is varnishlog' -s X -x -a '(__vtools_rule X)' -d 'hides records that RULE matches'
complete -c vtools -n '__vtools_is varnishlog' -s w -r -F -d 'writes to FILE, varnishlog a log file and varnishncsa its lines, and not to standard output, which - is'
complete -c vtools -n '__vtools_is varnishlog' -s a -d 'appends to the file of -w, which is emptied otherwise'
complete -c vtools -n '__vtools_is varnishlog' -s v -d 'prints VXID and mark in the line of each record'
complete -c vtools -n '__vtools_is varnishlog' -s A -d 'writes lines to the file of -w, and no log file'
complete -c vtools -n '__vtools_is varnishncsa; and __vtools_has 2' -l help -d 'prints what the tool takes'
complete -c vtools -n '__vtools_is varnishncsa' -s r -r -F -d 'reads the log file FILE'
complete -c vtools -n '__vtools_is varnishncsa' -s g -x -a '(__vtools_access_grouping g)' -d 'which transactions are a group'
complete -c vtools -n '__vtools_is varnishncsa' -s L -x -d 'keeps at most N transactions pending, 1 to 1000000'
complete -c vtools -n '__vtools_is varnishncsa' -s T -x -d "force-completes a transaction that began more than N seconds before the log's time, 1 to 1000000"
complete -c vtools -n '__vtools_is varnishncsa' -s q -x -a '(__vtools_query q)' -d 'takes only groups for which the query TEXT holds'
complete -c vtools -n '__vtools_is varnishncsa' -s Q -r -F -d 'reads queries from FILE, one a line'
complete -c vtools -n '__vtools_is varnishncsa' -s k -x -d 'takes the first N groups, shown or not, and reads no more, 1 to 999999999'
complete -c vtools -n '__vtools_is varnishncsa' -s b -d 'shows requests to a backend, and no other transactions but those of -c and -E'
complete -c vtools -n '__vtools_is varnishncsa' -s c -d "shows clients' requests, and no other transactions but those of -b and -E"
complete -c vtools -n '__vtools_is varnishncsa' -s E -d 'the same as -c, with requests for ESI parts'
complete -c vtools -n '__vtools_is varnishncsa' -s C -d 'asks patterns, and texts of queries, without regard to case'
complete -c vtools -n '__vtools_is varnishncsa' -s d -d 'taken, and of no effect, because a log is read from its beginning anyway'
complete -c vtools -n '__vtools_is varnishncsa' -s w -r -F -d 'writes to FILE, varnishlog a log file and varnishncsa its lines, and not to standard output, which - is'
complete -c vtools -n '__vtools_is varnishncsa' -s a -d 'appends to the file of -w, which is emptied otherwise'
complete -c vtools -n '__vtools_is varnishncsa' -s F -x -a '(__vtools_format F)' -d 'prints lines of this format'
complete -c vtools -n '__vtools_is varnishtop; and __vtools_has 2' -l help -d 'prints what the tool takes'
complete -c vtools -n '__vtools_is varnishtop' -s r -r -F -d 'reads the log file FILE'
complete -c vtools -n '__vtools_is varnishtop' -s g -x -a '(__vtools_grouping g)' -d 'which records are a group'
complete -c vtools -n '__vtools_is varnishtop' -s L -x -d 'keeps at most N transactions pending, 1 to 1000000'
complete -c vtools -n '__vtools_is varnishtop' -s T -x -d "force-completes a transaction that began more than N seconds before the log's time, 1 to 1000000"
complete -c vtools -n '__vtools_is varnishtop' -s q -x -a '(__vtools_query q)' -d 'takes only groups for which the query TEXT holds'
complete -c vtools -n '__vtools_is varnishtop' -s Q -r -F -d 'reads queries from FILE, one a line'
complete -c vtools -n '__vtools_is varnishtop' -s k -x -d 'takes the first N groups, shown or not, and reads no more, 1 to 999999999'
complete -c vtools -n '__vtools_is varnishtop' -s b -d 'shows requests to a backend, and no other transactions but those of -c and -E'
complete -c vtools -n '__vtools_is varnishtop' -s c -d "shows clients' requests, and no other transactions but those of -b and -E"
complete -c vtools -n '__vtools_is varnishtop' -s E -d 'the same as -c, with requests for ESI parts'
complete -c vtools -n '__vtools_is varnishtop' -s C -d 'asks patterns, and texts of queries, without regard to case'
complete -c vtools -n '__vtools_is varnishtop' -s d -d 'taken, and of no effect, because a log is read from its beginning anyway'
complete -c vtools -n '__vtools_is varnishtop' -s i -x -a '(__vtools_tag i)' -d 'shows records of these tags'
complete -c vtools -n '__vtools_is varnishtop' -s x -x -a '(__vtools_tag x)' -d 'hides records of these tags'
complete -c vtools -n '__vtools_is varnishtop' -s I -x -a '(__vtools_rule I)' -d 'shows records that RULE matches'
complete -c vtools -n '__vtools_is varnishtop' -s X -x -a '(__vtools_rule X)' -d 'hides records that RULE matches'
complete -c vtools -n '__vtools_is varnishtop' -s 1 -d 'counts to the end of the log and prints once'
complete -c vtools -n '__vtools_is varnishtop' -s f -d 'counts only the first field of each payload'
complete -c vtools -n '__vtools_is varnishstat; and __vtools_has 2' -l help -d 'prints what the tool takes'
complete -c vtools -n '__vtools_is varnishstat' -s 1 -d 'prints a line for each counter once all feeds are put'
complete -c vtools -n '__vtools_is varnishstat' -s j -d 'prints them as JSON, also beside -1'
complete -c vtools -n '__vtools_is varnishstat' -s l -d 'prints the names of counters, also beside -1 and -j'
complete -c vtools -n '__vtools_is varnishstat' -s f -x -a '(__vtools_counter f)' -d 'prints only counters whose whole name GLOB matches'
complete -c vtools -n '__vtools_is convert; and __vtools_has 2' -l help -d 'prints what the tool takes'
complete -c vtools -n '__vtools_is convert' -F
# made until here
