# Completion of syc and syc-run in bash, 4.2 or later. The package bash-completion finds it by itself where
# packaging/install puts it. Without that package a line of ~/.bashrc reads it:
#
#     . /usr/local/share/bash-completion/completions/syc
#
# What stands in files is compared and offered, and never expanded. No option of the shell is changed.

# _syc_offer WORD..: offers those that begin with the word at the cursor. Bash replaces its end alone: what `lead` has stays.
_syc_offer() {
    local it
    for it; do
        if [[ $it == "$word"* ]]; then COMPREPLY+=("${it#"$lead"}"); fi
    done
}

# Has bash offer files, with the quotes that they need.
_syc_offer_files() {
    compopt -o default 2>/dev/null || :
}

# _syc_split TEXT: sets `given` to its words, without their quotes, and `last` to the last one as it is typed.
_syc_split() {
    local rest=$1 part it=''
    given=() last=''
    while [[ $rest ]]; do
        if [[ ! $last && $rest == \~/* ]]; then it=$HOME last=\~ rest=${rest:1}; fi
        part=${rest%%[[:space:]\\\'\"]*}
        it+=$part last+=$part rest=${rest#"$part"}
        case $rest in
        '') ;;
        [[:space:]]*)
            if [[ $last ]]; then given+=("$it"); fi
            it='' last='' rest=${rest:1}
            ;;
        \'*\'* | \"*\"*)
            part=${rest:1} && part=${part%%"${rest:0:1}"*}
            it+=$part last+=${rest:0:${#part}+2} rest=${rest:${#part}+2}
            ;;
        \\?*) it+=${rest:1:1} last+=${rest:0:2} rest=${rest:2} ;;
        *) it+=${rest:1} last+=$rest rest='' ;;
        esac
    done
    given+=("$it")
}

# _syc_look WORD..: looks at the words before the cursor: `places` counts those that are no options, and `site` is the first
# of them; `wanted` is an option whose value comes next, or '>' where a file does; `ended` is set after '--'.
_syc_look() {
    local it
    places=0 site='' wanted='' ended=''
    for it; do
        if [[ $wanted ]]; then
            wanted=''
        elif [[ $it =~ ^[0-9\&]*[\<\>]+[\&\|]?$ ]]; then
            wanted='>'
        elif [[ $it =~ ^[0-9\&]*[\<\>] || ! $ended && $it == -?* ]]; then
            case $it in
            --) ended=1 ;;
            --class | --rename | --protect | --root | --left | --unread | --drain | --metrics | --metrics-every) wanted=$it ;;
            esac
        else
            places=$((places + 1))
            if [[ $places == 1 ]]; then site=$it; fi
        fi
    done
}

# The names of the relays of a site file, of at most 1 MiB: a regular file, where nothing waits.
_syc_offer_relays() {
    local name names
    if [[ -f $site && -r $site ]]; then
        names=$(command head -c 1048576 2>/dev/null <"$site" |
            LC_ALL=C command sed -nE 's/^[[:blank:]]*relay[[:blank:]]+([A-Za-z0-9._-]{1,64})[[:blank:]]+[^[:space:]].*/\1/p' |
            command head -n 64)
        while IFS= read -r name; do
            if [[ $name ]]; then _syc_offer "$name"; fi
        done <<<"$names"
    fi
}

# _syc_offer_classes LEADING: facilities with their dot, and behind that severities.
_syc_offer_classes() {
    local facility severity
    for facility in kern user mail daemon auth syslog lpr news uucp cron authpriv ftp {12..15} local{0..7}; do
        if [[ $word == "$1$facility."* ]]; then
            for severity in emerg alert crit err warning notice info debug; do _syc_offer "$1$facility.$severity"; done
        elif [[ $word != *.* ]]; then
            compopt -o nospace 2>/dev/null || :
            _syc_offer "$1$facility."
        fi
    done
}

# _syc_offer_values OPTION LEADING: values of an option, with what leads them in the word. There are none of a number.
_syc_offer_values() {
    case $1 in
    --class) _syc_offer_classes "$2" ;;
    --root | --left | --unread | --metrics | '>') _syc_offer_files ;;
    esac
}

# _syc_offer_options COMMAND
_syc_offer_options() {
    case $1 in
    check) _syc_offer --explain --all --json --strict --any-file ;;
    certify | verify | replay) _syc_offer --explain --json --any-file ;;
    diff) _syc_offer --explain --json --rename --any-file ;;
    survey) _syc_offer --protect --root --strict --json --sarif --any-file ;;
    convert) _syc_offer --protect --root --any-file ;;
    graph) _syc_offer --full --class --any-file ;;
    unread) _syc_offer --repair ;;
    syc-run) _syc_offer --resend ;;&
    run | syc-run)
        _syc_offer --unchecked --explain --strict --left --unread --drain --metrics --metrics-every --any-file
        ;;
    '') _syc_offer -C -V --version ;;
    help) return ;;
    esac
    _syc_offer -h --help
}

_syc() {
    local given last lead word places site wanted ended command='' first=1
    COMPREPLY=()
    _syc_split "${COMP_LINE:0:COMP_POINT}"
    lead=${last%"${2-}"} word=${given[${#given[@]} - 1]}
    if [[ ${given[0]##*/} == syc-run ]]; then
        command=syc-run
    elif [[ ${#given[@]} -gt 2 ]]; then
        command=${given[1]} first=2
    fi
    _syc_look "${given[@]:first:${#given[@]}-first-1}"
    if [[ $wanted ]]; then
        _syc_offer_values "$wanted" ''
    elif [[ $word =~ ^[0-9\&]*[\<\>] ]]; then
        _syc_offer_files
    elif [[ ! $ended && $word == --*=* ]]; then
        _syc_offer_values "${word%%=*}" "${word%%=*}="
    elif [[ ! $ended && $word == -* ]]; then
        _syc_offer_options "$command"
    else
        case $command-$places in
        -0 | help-0) _syc_offer pass check certify verify replay diff survey convert run unread lines graph explain help ;;
        explain-0) _syc_offer kind ;;
        run-1 | syc-run-1) _syc_offer_relays ;;
        *-0 | verify-1 | replay-1 | diff-1 | survey-*) if [[ $command != pass && $command != explain ]]; then _syc_offer_files; fi ;;
        esac
    fi
}

complete -F _syc syc syc-run
