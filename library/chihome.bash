# Completion of chihome's command line in bash: the commands, the options of each and their words, and files. The lines of the
# commands are those that the program says; library/completion puts them here.
_chihome_files() {
    compopt -o filenames 2> /dev/null
    mapfile -t COMPREPLY < <(compgen -f -- "$1")
}
_chihome() {
    local synopsis='@SYNOPSIS@'
    local word=${COMP_WORDS[COMP_CWORD]} before=${COMP_WORDS[COMP_CWORD - 1]} line words
    if [ "$COMP_CWORD" -eq 1 ]; then
        words=$(awk '{ print $2 }' <<< "$synopsis")
        mapfile -t COMPREPLY < <(compgen -W "$words" -- "$word")
        return
    fi
    line=$(awk -v command="${COMP_WORDS[1]}" '$2 == command' <<< "$synopsis")
    # (what an option takes stands behind it: words in small letters with bars between them, or something in capitals)
    words=
    [[ $before != --* ]] || words=$(sed -nE "s/.*\[$before ([^]]*)\].*/\1/p" <<< "$line")
    case $words in
        '') ;;
        FILE) _chihome_files "$word"; return ;;
        *[A-Z]*) return ;;
        *) mapfile -t COMPREPLY < <(compgen -W "${words//|/ }" -- "$word"); return ;;
    esac
    case $word in
        -*) mapfile -t COMPREPLY < <(compgen -W "$(grep -oE -e '--[a-z-]+' <<< "$line")" -- "$word") ;;
        *)
            if [[ $line == *'[COMMAND]'* ]]; then
                mapfile -t COMPREPLY < <(compgen -W "$(awk '{ print $2 }' <<< "$synopsis")" -- "$word")
            elif [[ $line == *"${COMP_WORDS[1]} FILE"* ]]; then
                _chihome_files "$word"
            fi
            ;;
    esac
}
complete -F _chihome chihome
