# Completion of cockledrift for bash.
_cockledrift()
{
    local word=${COMP_WORDS[COMP_CWORD]} before=${COMP_WORDS[COMP_CWORD-1]} words=
    if [ "$COMP_CWORD" -eq 1 ]; then
        words='info list check later convert salvage measure entrances catalogue verify restore diff edit plot view help --help --version'
    elif [ "$before" = --to ]; then
        words='8 7'
    elif [ "$before" = --color ]; then
        words='auto always never'
    elif [[ $word == -* ]]; then
        case ${COMP_WORDS[1]} in
            info) words='--json --quiet --color --help' ;;
            list) words='--raw --records --csv --json --quiet --color --help' ;;
            check) words='--strict --json --quiet --color --help' ;;
            later) words='--json --quiet --color --help' ;;
            convert) words='--to --output --force --json --quiet --color --help' ;;
            salvage) words='--output --force --json --quiet --color --help' ;;
            measure) words='--survey --json --quiet --color --help' ;;
            entrances) words='--from --to --json --quiet --color --help' ;;
            catalogue) words='--sums --output --force --json --quiet --color --help' ;;
            verify) words='--folder --json --quiet --color --help' ;;
            restore) words='--even-if-older --even-if-unknown --dry-run --json --quiet --color --help' ;;
            diff) words='--json --quiet --color --help' ;;
            edit) words='--at --count --with --output --force --json --quiet --color --help' ;;
            plot) words='--plan --elevation --scale --survey --output --force --json --quiet --color --help' ;;
            view) words='--output --force --json --quiet --color --help' ;;
        esac
    fi
    [ -n "$words" ] && mapfile -t COMPREPLY < <(compgen -W "$words" -- "$word")
}
complete -o default -F _cockledrift cockledrift
