# Completion for bash: the options of a program, and the commands of lockmon and image, are those of its --help; else
# files.
_hirvodas() {
    local word=${COMP_WORDS[COMP_CWORD]} help
    case $word in
        -*)
            help=$("${COMP_WORDS[0]}" $([[ ${COMP_WORDS[0]##*/} = @(lockmon|image) ]] && [ "$COMP_CWORD" -gt 1 ] && echo "${COMP_WORDS[1]}") --help 2>&1)
            COMPREPLY=($(compgen -W "$(grep -oE -- '^ .*--[a-z-]+' <<<"$help" | grep -oE -- '--[a-z-]+')" -- "$word")) ;;
        *)
            COMPREPLY=()
            [ "${COMP_WORDS[0]##*/}:$COMP_CWORD" != lockmon:1 ] || COMPREPLY=($(compgen -W "run queue asm help" -- "$word"))
            [ "${COMP_WORDS[0]##*/}:$COMP_CWORD" != image:1 ] || COMPREPLY=($(compgen -W "words source save list help" -- "$word")) ;;
    esac
}
complete -o default -F _hirvodas lockmon ten ddt lockview lockcheck orders image macro
