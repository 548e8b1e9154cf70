# Completion of preview's commands, options and files for bash. What there is, the program's own help says.
# A bare system has no /dev/fd, so that no list comes from there.
# shellcheck shell=bash disable=SC2207

_preview() {
    local program=${COMP_WORDS[0]} word=${COMP_WORDS[COMP_CWORD]} words
    COMPREPLY=()
    if ((COMP_CWORD == 1)); then
        words=$("$program" --help 2>/dev/null | awk '/^Commands:/ { told = 1; next } /^$/ { told = 0 } told { print $1 }')
        COMPREPLY=($(compgen -W "$words --help --version" -- "$word"))
    elif [[ $word == -* ]]; then
        words=$("$program" "${COMP_WORDS[1]}" --help 2>/dev/null | sed -n 's/^ *\(-[a-zA-Z], \)\{0,1\}\(--[a-z-]*\).*/\2/p')
        COMPREPLY=($(compgen -W "$words" -- "$word"))
    else
        local IFS=$'\n'
        COMPREPLY=($(compgen -f -- "$word"))
        compopt -o filenames 2>/dev/null
    fi
}

complete -F _preview preview
