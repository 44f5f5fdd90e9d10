# Completion for bash of nlkeep and nlvol: source it, or lay it in /etc/bash_completion.d.

_nlkeep_options() {
    # (echo would take -n for itself in front)
    case $1 in
    init) echo --size --at ;;
    backup) echo --plain --one-file-system --exclude --max --at -n -q ;;
    restore) echo --path --owners ;;
    list) echo -a -l --json ;;
    check) echo -a --json ;;
    ls | diff | history | df) echo --json ;;
    pin) echo -d --max --at ;;
    copy) echo --max -q ;;
    forget) echo --max --at ;;
    revert | untar) echo --max --at -q ;;
    prune) echo --last --hourly --daily --weekly --monthly --yearly -n -q --at ;;
    esac
}

_nlkeep() {
    local word=${COMP_WORDS[COMP_CWORD]} command=${COMP_WORDS[1]}
    local commands='init backup restore list ls tree du cat diff history find revert tar untar pin copy df show
        forget prune check rescue'
    COMPREPLY=()
    if [ "$COMP_CWORD" = 1 ]; then
        mapfile -t COMPREPLY < <(compgen -W "$commands --help --version" -- "$word")
    elif [[ $word == -* ]]; then
        mapfile -t COMPREPLY < <(compgen -W "$(_nlkeep_options "$command") --help" -- "$word")
    elif [ "$COMP_CWORD" = 3 ] && [[ $command =~ ^(restore|ls|tree|du|cat|diff|revert|tar|pin)$ ]]; then
        mapfile -t COMPREPLY < <(compgen -W "latest yesterday $(nlkeep list "${COMP_WORDS[2]}" 2> /dev/null |
            awk '{ print $1 }')" -- "$word")
    else
        mapfile -t COMPREPLY < <(compgen -f -- "$word")
    fi
}

_nlvol() {
    local word=${COMP_WORDS[COMP_CWORD]}
    COMPREPLY=()
    if [[ $word == -* ]]; then
        mapfile -t COMPREPLY < <(compgen -W '--segments --blocks --conf --open --save --help --version' -- "$word")
    else
        mapfile -t COMPREPLY < <(compgen -f -- "$word")
    fi
}

complete -o filenames -F _nlkeep nlkeep
complete -o filenames -F _nlvol nlvol
