# Completes the words of paviluko in bash. Read it in with
#     . tools/paviluko.bash
# or put it, under the name paviluko, into ~/.local/share/bash-completion/completions.

_paviluko() {
    local word=${COMP_WORDS[COMP_CWORD]} before=${COMP_WORDS[COMP_CWORD - 1]} command=${COMP_WORDS[1]}
    local options= kind= value= names=0 at IFS=$'\n'
    COMPREPLY=()
    if ((COMP_CWORD == 1)); then
        COMPREPLY=($(compgen -W $'new\nrun\ntable\nheat\nbus\ndemo\nhelp\nversion\n--help\n--version' -- "$word"))
        return
    fi

    # The folders and files that stand before the word: no options, nor what belongs to one.
    for ((at = 2; at < COMP_CWORD; at++)); do
        case ${COMP_WORDS[at]} in
        --vault | --plain | --file | --heatsplit) ((at++)) ;;
        -*) ;;
        *) ((names++)) ;;
        esac
    done

    case $command:$names in
    help:0) options=$'new\nrun\ntable\nheat\nbus\ndemo' ;;
    new:0) kind=-d options=--vault ;;
    new:*) options=--vault ;;
    run:0) kind=-d ;;
    run:1) kind=-f ;;
    table:0) kind=-d options=$'--csv\n--plain' ;;
    table:*) options=$'--csv\n--plain' ;;
    heat:[01]) kind=-f options=--lines ;;
    heat:*) options=--lines ;;
    bus:*) options=--file ;;
    demo:0) kind=-d options=--heatsplit ;;
    demo:*) options=--heatsplit ;;
    esac
    case $command$before in
    new--vault | table--plain | bus--file | demo--heatsplit) value=yes ;;
    esac
    if [[ $value ]]; then
        kind=-f options=
    elif [[ $word = -* ]]; then
        kind= options+=$'\n--help\n--version'
    fi
    if [[ $kind ]]; then
        compopt -o filenames 2>/dev/null
        COMPREPLY=($(compgen "$kind" -- "$word"))
    elif [[ $command = help || $word = -* ]]; then
        COMPREPLY=($(compgen -W "$options" -- "$word"))
    fi
}

complete -F _paviluko paviluko
