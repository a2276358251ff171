# Completes the words of ./vmosim and of the tools in bash. To use it: source tools/completion.bash

# Sets the completions of the word that is being typed to those of the words $1, or with -f to files too.
_vmosim_offer() {
    local word=${COMP_WORDS[COMP_CWORD]}
    mapfile -t COMPREPLY < <(compgen -W "$1" ${2-} -- "$word")
}

_vmosim() {
    local verbs='run batch sources actors check work' verb='' last=${COMP_WORDS[COMP_CWORD - 1]} it
    for it in "${COMP_WORDS[@]:1:COMP_CWORD-1}"; do
        case " $verbs " in *" $it "*) verb=${verb:-$it} ;; esac
    done
    if [ "$last" = --frames ]; then
        COMPREPLY=()
    elif [ -z "$verb" ] && [ "$COMP_CWORD" -eq 1 ]; then
        _vmosim_offer "$verbs --proved --try --build --path --tree --version --install --uninstall --help"
    elif [ -z "$verb" ] && [[ $last = --install || $last = --uninstall ]]; then
        _vmosim_offer '' -d
    elif [ -z "$verb" ]; then
        case $last in --proved) _vmosim_offer "$verbs" ;; --try) _vmosim_offer "$verbs --path" ;; --tree) _vmosim_offer '--path' ;; *) COMPREPLY=() ;; esac
    elif [ "$verb" = work ]; then
        _vmosim_offer '--frames'
    elif [ "$last" = "$verb" ]; then
        _vmosim_offer '--frames' -f
    else
        _vmosim_offer '' -f
    fi
}

_vmosim_look() {
    local verbs='annotate cost json why orders state draw tree page'
    case ${COMP_WORDS[COMP_CWORD - 1]} in
        --word) _vmosim_offer 'run batch sources' ;;
        --scheme) _vmosim_offer 'auto light dark' ;;
        --frames | --at) COMPREPLY=() ;;
        *)
            if [ "$COMP_CWORD" -eq 1 ]; then
                _vmosim_offer "$verbs --help"
            else
                _vmosim_offer '--frames --word --at --csv --scheme --program --tree' -f
            fi
            ;;
    esac
}

_vmosim_shell() {
    case ${COMP_WORDS[COMP_CWORD - 1]} in
        --word) _vmosim_offer 'run batch sources' ;;
        --frames) COMPREPLY=() ;;
        *) _vmosim_offer '--frames --word --program --help' -f ;;
    esac
}

_vmosim_play() {
    case ${COMP_WORDS[COMP_CWORD - 1]} in
        --word) _vmosim_offer 'run batch sources' ;;
        --frames | --port) COMPREPLY=() ;;
        *) _vmosim_offer '--page --frames --word --no-open --port --program --tree --help' -f ;;
    esac
}

_vmosim_expect() {
    case ${COMP_WORDS[COMP_CWORD - 1]} in
        --frames | --seconds | --without) COMPREPLY=() ;;
        *) _vmosim_offer '--tap --junit --update --frames --without --seconds --program --help' -f ;;
    esac
}

_vmosim_hunt() {
    case ${COMP_WORDS[COMP_CWORD - 1]} in
        --theme) _vmosim_offer 'each clones spaces pins all host' ;;
        --seed | --trials | --lines | --frames | --seconds | --jobs | --without) COMPREPLY=() ;;
        *) _vmosim_offer '--theme --seed --trials --lines --frames --seconds --jobs --without --fixed --replay --corpus --join --library --no-shrink --out --program --help' -f ;;
    esac
}

complete -o filenames -F _vmosim vmosim ./vmosim
complete -o filenames -F _vmosim_expect expect tools/expect vmosim-expect
complete -o filenames -F _vmosim_hunt hunt tools/hunt vmosim-hunt
complete -o filenames -F _vmosim_look look tools/look vmosim-look
complete -o filenames -F _vmosim_play play tools/play vmosim-play
complete -o filenames -F _vmosim_shell shell tools/shell vmosim-shell
