# What packaging/install and packaging/uninstall share: their words, and where each file goes. Both read it; it is no command.
# shellcheck shell=bash disable=SC2034,SC2154

umask 022
called=packaging/${0##*/}

say() {
    printf '%s: %s\n' "$called" "$*" >&2
}

# refuse TEXT: the words are faulty.
refuse() {
    say "$*: see $called -h"
    exit 2
}

# take WORD..: the words of both. It sets prefix and destdir, without a slash at their ends, unproved and program.
take() {
    prefix=/usr/local destdir='' unproved='' program=''
    while [ $# -gt 0 ]; do
        case $1 in
        -h | --help) sed -n '2,/^$/s/^# \{0,1\}//p' "$0" && exit ;;
        --unproved) unproved=1 ;;
        --prefix=* | --destdir=*) set -- "${1%%=*}" "${1#*=}" "${@:2}" && continue ;;
        --prefix | --destdir | -p)
            [ $# -gt 1 ] || refuse "$1 wants a word"
            case $1 in
            --prefix) prefix=$2 ;;
            --destdir) destdir=$2 ;;
            -p) program=$2 ;;
            esac
            shift
            ;;
        *) refuse "no such word: $1" ;;
        esac
        shift
    done
    case $prefix in
    [!/]* | '') refuse "--prefix $prefix: it has to begin with a slash" ;;
    *[[:cntrl:]\"\'\\%\$]*) refuse "--prefix $prefix: a unit can't have such a path" ;;
    esac
    case $destdir in
    '' | /*) ;;
    *) destdir=$PWD/$destdir ;;
    esac
    case $program in
    '' | /*) ;;
    *) program=$PWD/$program ;;
    esac
    while [[ $prefix == */ ]]; do prefix=${prefix%/}; done
    while [[ $destdir == */ ]]; do destdir=${destdir%/}; done
}

# goes MODE FILE TARGET: one file more of the list.
goes() {
    modes+=("$1") files+=("$2") targets+=("$3")
}

# Lists what is installed: modes, files, targets. The program and the unit have names in place of their files. Of the examples
# that is all but what their relays wrote.
list_files() {
    local at=$destdir$prefix mode it
    modes=() files=() targets=() documents=$at/share/doc/syc snippet=$destdir/etc/logrotate.d/syc
    goes 755 program "$at/bin/syc"
    goes 755 "$top/packaging/syc-run" "$at/bin/syc-run"
    goes 644 unit "$at/lib/systemd/system/syc@.service"
    goes 644 "$top/packaging/syc.logrotate" "$snippet"
    for it in syc syc-run; do
        goes 644 "$top/packaging/completions/syc.bash" "$at/share/bash-completion/completions/$it"
        goes 644 "$top/packaging/completions/syc.fish" "$at/share/fish/vendor_completions.d/$it.fish"
    done
    goes 644 "$top/packaging/completions/_syc" "$at/share/zsh/site-functions/_syc"
    if [ -d "$top/packaging/man" ]; then
        while IFS= read -r -d '' it; do
            goes 644 "$it" "$at/share/man/man${it##*.}/${it##*/}"
        done < <(find "$top/packaging/man" -type f -name '*.[1-9]' -print0 | LC_ALL=C sort -z)
    fi
    while IFS= read -r -d '' it; do
        mode=644
        [ ! -x "$top/$it" ] || mode=755
        goes "$mode" "$top/$it" "$documents/$it"
    done < <(cd -- "$top" && find README.md docs examples \( -name __pycache__ -o -name '.*' \) -prune -o \
        -type f ! -name '*.log' -print0 | LC_ALL=C sort -z)
}

# Whether the user may write to a folder, or to the one in which it would be made. Root is told by the write itself.
may_write() {
    local folder=$1
    [ "$(id -u)" -ne 0 ] || return 0
    while [ "$folder" ] && [ ! -d "$folder" ]; do folder=${folder%/*}; done
    [ -w "${folder:-/}" ]
}
