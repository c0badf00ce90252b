# Completes the words of `mel` in bash, by argcomplete (Debian: python3-argcomplete).
_mel() {
    local IFS=$'\013'
    COMPREPLY=($(IFS="$IFS" COMP_LINE="$COMP_LINE" COMP_POINT="$COMP_POINT" COMP_TYPE="$COMP_TYPE" _ARGCOMPLETE=1 _ARGCOMPLETE_SHELL=bash \
        _ARGCOMPLETE_COMP_WORDBREAKS="$COMP_WORDBREAKS" _ARGCOMPLETE_SUPPRESS_SPACE=0 "$1" 8>&1 9> /dev/null > /dev/null 2>&1))
}
complete -o nospace -o default -o bashdefault -F _mel mel
