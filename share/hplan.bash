# Completion for bash: the commands of hplan, their options, and files.
_hplan() {
    local word=${COMP_WORDS[COMP_CWORD]} before=${COMP_WORDS[COMP_CWORD-1]} command= options= i
    for ((i = 1; i < COMP_CWORD; i++)); do
        case ${COMP_WORDS[i]} in
        solve | resume | certify | inspect | migrate | validate | ground | replay | help)
            command=${COMP_WORDS[i]}
            break
            ;;
        esac
    done
    case $before in
    --journal | --to | --plan)
        COMPREPLY=($(compgen -f -- "$word"))
        return
        ;;
    --workers | --limit)
        COMPREPLY=()
        return
        ;;
    esac
    case $command in
    '' | help)
        options="solve resume certify inspect migrate validate ground replay"
        [ -n "$command" ] || options="$options help --help --version"
        COMPREPLY=($(compgen -W "$options" -- "$word"))
        return
        ;;
    solve | resume) options="--journal --workers --limit --progress --stats --plan --explain --help" ;;
    certify) options="--journal --stats --explain --help" ;;
    inspect) options="--journal --explain --help" ;;
    migrate) options="--journal --to --salvage --explain --help" ;;
    validate) options="--explain --trace --help" ;;
    ground | replay) options="--explain --help" ;;
    esac
    case $word in
    -*) COMPREPLY=($(compgen -W "$options" -- "$word")) ;;
    *) COMPREPLY=($(compgen -f -- "$word")) ;;
    esac
}
complete -o filenames -F _hplan hplan
