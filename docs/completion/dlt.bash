# Completion of bash for the programs: ./install copies it, under the name of each, into share/bash-completion/completions.

# the words that begin as the one at the cursor
_dlt_words() {
    COMPREPLY=($(compgen -W "$1" -- "${COMP_WORDS[COMP_CWORD]}"))
}

# files and folders; with -d folders alone
_dlt_names() {
    compopt -o filenames 2>/dev/null
    COMPREPLY=()
    local name
    while IFS= read -r name; do
        COMPREPLY+=("$name")
    done < <(compgen "${1:--f}" -- "${COMP_WORDS[COMP_CWORD]}")
}

# whether a word stands before the cursor
_dlt_has() {
    local place
    for ((place = 1; place < COMP_CWORD; place++)); do
        [ "${COMP_WORDS[place]}" != "$1" ] || return 0
    done
    return 1
}

_dlt_daemon() {
    case ${COMP_WORDS[COMP_CWORD - 1]} in
    --conf | --status-file) _dlt_names ;;
    --port | --users | --status | --sync) COMPREPLY=() ;;
    *) _dlt_words '--conf --port --users --status --status-file --sync --until-eof --verbose --help --version' ;;
    esac
}

_dlt_run() {
    case ${COMP_WORDS[COMP_CWORD - 1]} in
    --conf) _dlt_names ;;
    --port | --users | --rounds) COMPREPLY=() ;;
    *)
        if _dlt_has --serve; then
            _dlt_words '--conf --port --users --rounds'
        elif [ "$COMP_CWORD" = 1 ] && [[ ${COMP_WORDS[1]} == -* ]]; then
            _dlt_words '--serve --conf --port'
        elif [[ ${COMP_WORDS[COMP_CWORD]} == -* ]]; then
            _dlt_words '--conf --port'
        else
            _dlt_names
        fi
        ;;
    esac
}

_dlt_replay() {
    COMPREPLY=()
    [ "$COMP_CWORD" != 1 ] || _dlt_words 'steps generate'
}

_dlt_receive() {
    _dlt_words '--contexts --help --version'
}

_dlt_why() {
    if [ "$COMP_CWORD" = 1 ]; then
        _dlt_words 'steps trace stream find --help --version'
    elif [ "${COMP_WORDS[COMP_CWORD - 1]}" = --picture ]; then
        _dlt_names
    elif [ "${COMP_WORDS[1]}" = find ]; then
        COMPREPLY=()
        [ "$COMP_CWORD" -lt 5 ] || _dlt_names
    elif [[ ${COMP_WORDS[COMP_CWORD]} == -* ]]; then
        _dlt_words '--picture'
    else
        _dlt_names
    fi
}

complete -F _dlt_daemon dlt_daemon dlt_daemon.sh
complete -F _dlt_run dlt_run
complete -F _dlt_replay dlt_replay
complete -F _dlt_receive dlt_receive
complete -F _dlt_why dlt_why
