# shellcheck shell=bash
# What bash offers behind the word bec. (made by bench/make_words)
_bec() {
    local word=${COMP_WORDS[COMP_CWORD]} command=${COMP_WORDS[1]} offered=''
    if [ "$COMP_CWORD" -eq 1 ]; then
        offered="init keygen apply join set dump query watch heads notes export draw log show who diff status schema key csv page import clone merge sync serve check hsskey seal unseal audit confirm world demo help --help --version"
    elif [ "$command" = help ]; then
        offered="init keygen apply join set dump query watch heads notes export draw log show who diff status schema key csv page import clone merge sync serve check hsskey seal unseal audit confirm world demo status tutorial commands schemas queries confluence tables operating worlds seals docs/AUDIT.md glossary releases"
    else
        case $command,${COMP_WORDS[COMP_CWORD - 1]} in
        keygen,--height) offered="5 10 15" ;;
        keygen,--width) offered="1 2 4 8" ;;
        keygen,*) [[ $word == -* ]] && offered="--height --width" ;;
        apply,--note) offered="" ;;
        apply,*) [[ $word == -* ]] && offered="--note" ;;
        set,*) [[ $word == -* ]] && offered="--null" ;;
        dump,*) [[ $word == -* ]] && offered="--json" ;;
        query,*) [[ $word == -* ]] && offered="--json" ;;
        watch,--every) offered="" ;;
        watch,*) [[ $word == -* ]] && offered="--every --follow" ;;
        export,*) [[ $word == -* ]] && offered="--updates" ;;
        draw,*) [[ $word == -* ]] && offered="--dot" ;;
        log,*) [[ $word == -* ]] && offered="--rows --full --json" ;;
        show,*) [[ $word == -* ]] && offered="--full --json" ;;
        who,*) [[ $word == -* ]] && offered="--full --json" ;;
        diff,*) [[ $word == -* ]] && offered="--full --json" ;;
        status,*) [[ $word == -* ]] && offered="--json" ;;
        serve,--sessions) offered="1 2 3 4 5 6 7 8" ;;
        serve,*) [[ $word == -* ]] && offered="--sessions" ;;
        hsskey,--height) offered="5 10" ;;
        hsskey,--width) offered="1 2 4 8" ;;
        hsskey,*) [[ $word == -* ]] && offered="--height --width" ;;
        world,*) [[ $word == -* ]] && offered="--audit" ;;
        esac
    fi
    mapfile -t COMPREPLY < <(compgen -W "$offered" -- "$word")
}
complete -o default -F _bec bec
