# Completion of lindenscoop for bash. scripts/test-install.py compares its words with those that the command takes.

# Files, as readline completes them.
_lindenscoop_files() {
    compopt -o default
    COMPREPLY=()
}

_lindenscoop_words() {
    mapfile -t COMPREPLY < <(compgen -W "$1" -- "$2")
}

# The value of an option, or status 1 where the word before takes none.
_lindenscoop_value() {
    case $1 in
        --form) _lindenscoop_words 'standard capture erlangen spa racal sysplex computime sat rmc' "$2" ;;
        --baud) _lindenscoop_words '300 600 1200 2400 4800 9600 19200 38400 57600 115200' "$2" ;;
        --framing) _lindenscoop_words '7E1 7E2 7N2 7O1 7O2 8E1 8E2 8N1 8N2 8O1 8O2' "$2" ;;
        --record | --to | --svg) _lindenscoop_files ;;
        --damage | --count | --interval | --title) COMPREPLY=() ;;
        *) return 1 ;;
    esac
}

_lindenscoop_option() {
    case $1 in
        listen) _lindenscoop_words '--form --baud --framing --record --help' "$2" ;;
        export) _lindenscoop_words '--json --csv --form --baud --framing --help' "$2" ;;
        runs) _lindenscoop_words '--form --csv --json --svg --title --baud --framing --help' "$2" ;;
        why | write) _lindenscoop_words '--help' "$2" ;;
        simulate) _lindenscoop_words '--pty --to --damage --count --interval --baud --framing --help' "$2" ;;
    esac
}

# Write and simulate have the form as their first word; all else that is no option is a file.
_lindenscoop_rest() {
    if [[ $1 == simulate || ($1 == write && $COMP_CWORD -eq 2) ]]; then
        _lindenscoop_words 'standard capture erlangen spa racal sysplex computime frame block sat c37118 rmc' "$2"
    else
        _lindenscoop_files
    fi
}

_lindenscoop() {
    local current=${COMP_WORDS[COMP_CWORD]} before=${COMP_WORDS[COMP_CWORD - 1]} name=${COMP_WORDS[1]}
    # bash cuts --form=racal into three words
    if [[ $current == = ]]; then
        current=
    elif [[ $before == = ]]; then
        before=${COMP_WORDS[COMP_CWORD - 2]}
    fi
    if ((COMP_CWORD == 1)); then
        _lindenscoop_words 'listen export runs why write simulate help --help --version' "$current"
    elif [[ $name == help ]]; then
        _lindenscoop_words 'listen export runs why write simulate' "$current"
    elif _lindenscoop_value "$before" "$current"; then
        :
    elif [[ $current == -* ]]; then
        _lindenscoop_option "$name" "$current"
    else
        _lindenscoop_rest "$name" "$current"
    fi
}

complete -F _lindenscoop lindenscoop
