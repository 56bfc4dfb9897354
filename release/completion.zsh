#compdef vicinity
# zsh completion for vicinity

local -a with_file with_files
with_file=(@WITH_FILE@)
with_files=(@WITH_FILES@)
if (( CURRENT == 2 )); then
    compadd @COMMANDS@
elif (( $with_files[(Ie)$words[2]] )) || (( CURRENT == 3 && $with_file[(Ie)$words[2]] )); then
    _files
fi
