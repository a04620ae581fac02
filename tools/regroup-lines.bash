# Completes the options of regroup-lines, and the values of --invalid, --quote and --round.
_regroup_lines() {
    local word=${COMP_WORDS[COMP_CWORD]} before=${COMP_WORDS[COMP_CWORD - 1]}
    local words="--field --delimiter --blanks --csv --output-delimiter --quote --only --sum --header --header-lines --empty --invalid --rejects --typed --lenient --affix --decimals --round --line-buffered --zero-terminated --help --version"
    case $before in
    --invalid) words="abort fail warn ignore" ;;
    --quote) words="keep necessary" ;;
    --round) words="half-even half-away-from-zero toward-zero exact" ;;
    --field | -f | --delimiter | -d | --output-delimiter | --header-lines | --affix | --decimals | --rejects) return ;;
    esac
    mapfile -t COMPREPLY < <(compgen -W "$words" -- "$word")
}
complete -o default -F _regroup_lines regroup-lines
