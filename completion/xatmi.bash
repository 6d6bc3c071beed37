# Completion of ./xatmi for bash, made by tools/manual of tools/words.toml. Use: . completion/xatmi.bash

_xatmi_files() {
    local IFS=$'\n'
    compopt -o filenames
    COMPREPLY+=($(compgen -d -- "$word") $(compgen -f -X "!$1" -- "$word"))
}

_xatmi() {
    local word=${COMP_WORDS[COMP_CWORD]} before=${COMP_WORDS[COMP_CWORD - 1]} place=0 at
    COMPREPLY=()
    if [ "$COMP_CWORD" -eq 1 ]; then
        COMPREPLY=($(compgen -W 'run record audit play server check watch trial told new rule build test which help --version' -- "$word"))
        return
    fi
    # Which word of the command it is, options and what follows them left out.
    for ((at = 2; at < COMP_CWORD; at++)); do
        case ${COMP_WORDS[1]}:${COMP_WORDS[at]} in
            check:--play | watch:--log | trial:--config | trial:--calls | trial:--patience) ((at++)) ;;
            *:-*) ;;
            *) ((++place)) ;;
        esac
    done
    case ${COMP_WORDS[1]}:$before in
        check:--play) return ;;
        watch:--log) _xatmi_files '*'; return ;;
        trial:--config) _xatmi_files '*.toml'; return ;;
        trial:--calls) return ;;
        trial:--patience) return ;;
    esac
    case ${COMP_WORDS[1]}:$word in
        check:-*) COMPREPLY=($(compgen -W '--play --help' -- "$word")); return ;;
        watch:-*) COMPREPLY=($(compgen -W '--json --log --help' -- "$word")); return ;;
        trial:-*) COMPREPLY=($(compgen -W '--config --calls --patience --help' -- "$word")); return ;;
        told:-*) COMPREPLY=($(compgen -W '--json --check --help' -- "$word")); return ;;
        new:-*) COMPREPLY=($(compgen -W '--c --help' -- "$word")); return ;;
        rule:-*) COMPREPLY=($(compgen -W '--all --help' -- "$word")); return ;;
    esac
    case ${COMP_WORDS[1]}:$place in
        run:0) _xatmi_files '*.toml' ;;
        record:0) _xatmi_files '*.toml' ;;
        audit:0) _xatmi_files '*' ;;
        play:0) COMPREPLY=($(compgen -W 'ECHO LEN FAIL EXIT DIE TRANSFER ACCT PASS RELAY QUIT ADV' -- "$word")) ;;
        check:0) _xatmi_files '*.toml' ;;
        check:1) _xatmi_files '*.script' ;;
        watch:0) _xatmi_files '*.toml' ;;
        trial:0) _xatmi_files '*' ;;
        trial:1) _xatmi_files '*' ;;
        told:0) _xatmi_files '*.toml' ;;
    esac
}

complete -F _xatmi xatmi ./xatmi
