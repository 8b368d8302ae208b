# Completion of bash for relay: the options and commands that `relay --help` lists, and files.

_relay_words() { # PROGRAM [COMMAND]: what may stand first, or the options of a command
    "$1" --help 2>/dev/null | awk -v command="$2" '/^  relay / {
        for (i = 2; i <= NF; i++) {
            word = $i
            gsub(/[][]/, "", word)
            option = word ~ /^-/
            if (!option && i > 2) next
            if (command == "" && (option || word ~ /^[a-z]+$/)) print word
            if (command == "" && !option) next
            if (command != "" && i == 2 && word != command) next
            if (command != "" && i > 2) print word
        }
    }' | sort -u
}

_relay() {
    local word=${COMP_WORDS[COMP_CWORD]} first=
    [ "$COMP_CWORD" -le 1 ] || first=${COMP_WORDS[1]}
    mapfile -t COMPREPLY < <(
        [ "$COMP_CWORD" -ne 1 ] || compgen -W "--help --version $(_relay_words "${COMP_WORDS[0]}")" -- "$word"
        [ "$COMP_CWORD" -ne 2 ] || compgen -W "$(_relay_words "${COMP_WORDS[0]}" "$first")" -- "$word"
        compgen -f -- "$word"
    )
}

complete -o filenames -F _relay relay
