# Completion of the words of gbus for bash, from what `gbus help` prints. Source this file.

# The words that may come behind those that stand before the cursor.
_gbus_words() {
    "$1" help 2>/dev/null | awk -v before="$2" -F '   *' '
        NR > 1 && /^  / && index($2 " ", before) == 1 {
            split(substr($2 " ", length(before) + 1), word, " ")
            if (word[1] != "" && word[1] != "N") print word[1]
        }'
}

_gbus() {
    local before
    before=$(printf '%s ' "${COMP_WORDS[@]:1:COMP_CWORD-1}")
    [ "$COMP_CWORD" -gt 1 ] || before=
    mapfile -t COMPREPLY < <(compgen -W "$(_gbus_words "$1" "$before")" -- "$2" | sort -u)
}

complete -o default -F _gbus gbus
