# Completion of the words of asc and its tools for bash: `source tools/asc.bash`, or this file under the name of each in
# ~/.local/share/bash-completion/completions. Numbers that are offered are a range's ends and its default.

_asc() {
    local word=${COMP_WORDS[COMP_CWORD]} before=${COMP_WORDS[COMP_CWORD - 1]} offered=
    local tool=${COMP_WORDS[0]##*/} command=${COMP_WORDS[1]} commands="run save make trial batch" at=1 own=
    COMPREPLY=()
    # An option and its value behind a = are three words here.
    if [ "$word" = = ]; then
        word=
    elif [ "$before" = = ]; then
        before=${COMP_WORDS[COMP_CWORD - 2]}
    fi
    # A tool's own options, some of which stand before all else, and the command that has its others.
    case $tool in
        asc_show)
            commands="entry miss at profile seek"
            [ "$COMP_CWORD" -ne 2 ] || [ "$command" != profile ] || own=--all
            command=run
            ;;
        asc-pc) own="--asc --show --no-try --best --lap --seconds" command=run commands= ;;
        asc-plot)
            commands="steps hits workers"
            case $command in
                hits) own="--asc --parts" command=run ;;
                workers) own="--asc --most --times" command=run ;;
            esac
            ;;
        asc-show)
            [ "$COMP_CWORD" -ne 1 ] || own="--show --data --miss"
            [[ " ${COMP_WORDS[*]} " != *" --miss "* || $COMP_CWORD -eq 1 ]] || own=--guess
            command=show commands=
            ;;
        asc-steps)
            [ "$COMP_CWORD" -ne 1 ] || own=--asc
            command=run commands=
            ;;
        asc-why)
            while [[ ${COMP_WORDS[at]} = --@(asc|show) && $COMP_CWORD -gt $((at + 1)) ]]; do
                at=$((at + 2))
            done
            command=${COMP_WORDS[at]}
            [ "$COMP_CWORD" -ne "$at" ] || own="--asc --show"
            ;;
    esac
    [[ $tool = asc?(_show) || $COMP_CWORD -ne 1 ]] || own+=" --help"
    if [ "$COMP_CWORD" -eq "$at" ] && [ -n "$commands" ]; then
        offered=$commands
        [[ $word != -* ]] || offered=$own
    elif [[ $command != @(run|save|batch|show|steps|--asc|--show) && $before != --workers ]]; then
        [ "$command" = trial ] && offered="--workers --rounds"
    else
        case $before in
            --memory) offered="64 1024 65536" ;;
            --steps) offered="0 1099511627776" ;;
            --machine) offered="1 2" ;;
            --guess) offered="none last stride both" ;;
            --profile) offered="2 4096 65536" ;;
            --min) offered="2 4 65536" ;;
            --laps) offered="1 1000000" ;;
            --span) offered="1 1000000 1000000000" ;;
            --ahead) offered="1 4 64" ;;
            --workers) offered="0 64" ;;
            --queue) offered="1 256 1024" ;;
            --lap) offered=100 ;;
            --seconds) offered=60 ;;
            --parts) offered=20 ;;
            --times) offered=3 ;;
            --pc | --most) ;;
            *)
                case $command$word in
                    steps-*) ;;
                    show-*) offered="$own --memory --steps --machine --laps --span" ;;
                    run-* | save-* | batch-*)
                        offered="$own --memory --steps --machine --guess --pc --profile --min --laps --span --ahead"
                        offered+=" --queue --join"
                        [ "$tool ${COMP_WORDS[1]}" = "asc_show seek" ] || offered+=" --seek"
                        [ "$command" != run ] || offered+=" --workers --rounds --load --report"
                        [ "$command" != batch ] || offered+=" --workers --report"
                        ;;
                    *)
                        mapfile -t COMPREPLY < <(compgen -f -- "$word")
                        compopt -o filenames 2>/dev/null
                        return
                        ;;
                esac
                ;;
        esac
    fi
    mapfile -t COMPREPLY < <(compgen -W "$offered" -- "$word")
}

complete -F _asc asc asc_show asc-pc asc-plot asc-show asc-steps asc-why
