# Made by tools/make_completions.py from what t1subset says of itself.
_t1subset() {
    local cur=${COMP_WORDS[COMP_CWORD]} options takes names name font first=1 at place=0
    COMPREPLY=()
    [ "${COMP_WORDS[1]}" = --explain ] && [ "$COMP_CWORD" -gt 1 ] && first=2
    at=$first
    case ${COMP_WORDS[first]} in
    subset) options='--explain --names --codes --text --tokens --pfb --help' takes='--names|--codes|--text|--tokens' names=3 ;;
    merge) options='--explain --tokens --pfb --help' takes='--tokens' names=0 ;;
    rejoin) options='--explain --tokens --pfb --help' takes='--tokens' names=0 ;;
    pool) options='--explain --tags --dsc --help' takes='-' names=0 ;;
    level) options='--explain --help' takes='-' names=0 ;;
    fonts) options='--explain --extract --help' takes='--extract' names=0 ;;
    diff) options='--explain --tokens --help' takes='--tokens' names=0 ;;
    mend) options='--explain --pfb --help' takes='-' names=0 ;;
    check) options='--explain --help' takes='-' names=0 ;;
    list) options='--explain --full --help' takes='-' names=0 ;;
    show) options='--explain --help' takes='-' names=2 ;;
    pfa) options='--explain --help' takes='-' names=0 ;;
    pfb) options='--explain --help' takes='-' names=0 ;;
    join) options='--explain --help' takes='-' names=0 ;;
    *) options= takes=- names=0 ;;
    esac
    # The arguments before the cursor: neither options nor what they take.
    while [ $((at += 1)) -lt "$COMP_CWORD" ]; do
        case ${COMP_WORDS[at]} in
        -*) [[ ${COMP_WORDS[at]} =~ ^($takes)$ ]] && ((at += 1)) ;;
        *) [ $((place += 1)) -eq 1 ] && font=${COMP_WORDS[at]} ;;
        esac
    done
    if [ "$COMP_CWORD" -eq "$first" ]; then options='subset merge rejoin pool level fonts diff mend check list show pfa pfb join help --explain --help --version'
    elif [ "${COMP_WORDS[first]}" = help ]; then options='subset merge rejoin pool level fonts diff mend check list show pfa pfb join'
    elif [[ ${COMP_WORDS[COMP_CWORD - 1]} =~ ^($takes)$ ]]; then return
    elif [[ $cur != -* ]]; then
        [ "$names" -gt 0 ] && [ $((place + 1)) -ge "$names" ] || return
        # Names of glyphs, but for those that are printed with a backslash. A font may hold any: none is expanded.
        while IFS= read -r name; do
            [[ $name == "$cur"* ]] && printf -v name %q "$name" && COMPREPLY+=("$name")
        done < <(t1subset list "${font/#\~\//$HOME/}" 2> /dev/null | sed -n 's/^glyph \([^\ ]*\) [0-9]*$/\1/p')
        return
    fi
    COMPREPLY=($(compgen -W "$options" -- "$cur"))
}
complete -o default -F _t1subset t1subset
