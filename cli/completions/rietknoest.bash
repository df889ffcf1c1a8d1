# Completions of the command rietknoest for bash. tools/install installs it; or: source this file.
_rietknoest() {
    local word=${COMP_WORDS[COMP_CWORD]} before=${COMP_WORDS[COMP_CWORD - 1]} options
    local commands="list gaps scrub check explain month market"
    COMPREPLY=()
    if [ "$COMP_CWORD" -eq 1 ]; then
        mapfile -t COMPREPLY < <(compgen -W "$commands help --help -h --version -V" -- "$word")
        return
    fi
    case ${COMP_WORDS[1]} in
    list) options="--follow --summary --json" ;;
    gaps) options="--json" ;;
    scrub) options="-o --step --whole --force" ;;
    check | explain) options="--step" ;;
    month) options="--channels --sums" ;;
    market) options="" ;;
    help)
        [ "$COMP_CWORD" -ne 2 ] || mapfile -t COMPREPLY < <(compgen -W "$commands" -- "$word")
        return
        ;;
    *) return ;;
    esac
    [ "$before" != --channels ] || return
    if [[ $word == -* && $before != -o ]]; then
        mapfile -t COMPREPLY < <(compgen -W "$options --quiet -q --help -h" -- "$word")
    else
        mapfile -t COMPREPLY < <(compgen -f -- "$word")
    fi
}
complete -o filenames -F _rietknoest rietknoest
