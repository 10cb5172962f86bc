# Completions of dwarf for bash.
_dwarf() {
    local commands="show find type check set copy help"
    local files="--info --abbrev --str --line-str --str-offsets"
    local word=${COMP_WORDS[COMP_CWORD]} before=${COMP_WORDS[COMP_CWORD - 1]} options
    COMPREPLY=()
    if [ "$COMP_CWORD" -eq 1 ]; then
        mapfile -t COMPREPLY < <(compgen -W "$commands --help" -- "$word")
        return
    fi
    case "${COMP_WORDS[1]}" in
        show | find | type | check | copy) options="$files --big --v4 --help" ;;
        set) options="$files --big --v4 --minus --help" ;;
        help) mapfile -t COMPREPLY < <(compgen -W "$commands" -- "$word"); return ;;
        *) return ;;
    esac
    case " $files " in
        *" $before "*) mapfile -t COMPREPLY < <(compgen -f -- "$word") ;;
        *) mapfile -t COMPREPLY < <(compgen -W "$options" -- "$word") ;;
    esac
}
complete -o filenames -F _dwarf dwarf
