#compdef hplan
# Completion for zsh: the commands of hplan, their options, and files.
_hplan() {
    local -a commands search
    commands=(
        'solve:find a plan of least cost'
        'resume:go on with a search that was stopped'
        'certify:report what a journal shows by itself'
        'inspect:describe a journal'
        'migrate:copy the entries of a journal to a new one'
        'validate:check a plan'
        'ground:print the ground actions of a task'
        'replay:play a schedule of a search'
        'help:print help'
    )
    search=(
        '--workers[number of threads, 1 to 64]:number'
        '--limit[stop once so many nodes are expanded]:number'
        '--progress=-[print a line each second, or each SECONDS]::seconds'
        '--stats[print statistics at the end]'
        '--plan[file for the best plan so far]:file:_files'
    )
    if (( CURRENT == 2 )); then
        _describe command commands
        _arguments '--help[print help]' '--version[print the version]'
        return
    fi
    case $words[2] in
        solve | resume) _arguments '*:file:_files' '--journal[file of the search]:file:_files' $search '--explain[explain an error]' '--help[print help]' ;;
        certify) _arguments '*:file:_files' '--journal[file of the search]:file:_files' '--stats[print statistics at the end]' '--explain[explain an error]' '--help[print help]' ;;
        inspect) _arguments '*:file:_files' '--journal[file of the search]:file:_files' '--explain[explain an error]' '--help[print help]' ;;
        migrate) _arguments '*:file:_files' '--journal[file to copy]:file:_files' '--to[file to write]:file:_files' '--salvage[keep what is before the damage]' '--explain[explain an error]' '--help[print help]' ;;
        validate) _arguments '*:file:_files' '--explain[explain an error]' '--trace[print what each step does]' '--help[print help]' ;;
        ground | replay) _arguments '*:file:_files' '--explain[explain an error]' '--help[print help]' ;;
        help) _describe command commands ;;
    esac
}
_hplan "$@"
