# bash completion for vicinity

_vicinity() {
    local word=${COMP_WORDS[COMP_CWORD]}
    COMPREPLY=()
    if [[ $COMP_CWORD -eq 1 ]]; then
        mapfile -t COMPREPLY < <(compgen -W "@COMMANDS@" -- "$word")
    elif [[ " @WITH_FILES@ " == *" ${COMP_WORDS[1]} "* ||
        $COMP_CWORD -eq 2 && " @WITH_FILE@ " == *" ${COMP_WORDS[1]} "* ]]; then
        compopt -o filenames
        mapfile -t COMPREPLY < <(compgen -f -- "$word")
    fi
}
complete -F _vicinity vicinity
