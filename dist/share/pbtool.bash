# Completion of pbtool for bash. Of a descriptor set that is named before, the names of its types are offered.
_pbtool() {
    local current=${COMP_WORDS[COMP_CWORD]} before=${COMP_WORDS[COMP_CWORD - 1]} command=${COMP_WORDS[1]} words=() flags names at
    COMPREPLY=()
    if [ "$COMP_CWORD" -eq 1 ]; then
        COMPREPLY=($(compgen -W "raw check show canon json text frames types compile compat from-json help version --help --version -h -V" -- "$current"))
        return
    fi
    case $command in
        raw) flags="--short --nested --explain --help -h" ;;
        show) flags="-d --decimal --explain --lenient --help -h" ;;
        frames) flags="-d --decimal --json --keep-going --explain --lenient --help -h" ;;
        check) flags="--explain --lenient --help -h" ;;
        from-json) flags="--ignore-unknown --explain --lenient --help -h" ;;
        types) flags="--lenient --help -h" ;;
        canon) flags="--out --explain --lenient --help -h" ;;
        json) flags="--pretty --explain --lenient --help -h" ;;
        text) flags="--single-line --explain --lenient --help -h" ;;
        compile) flags="-I -o --descriptor_set_out --explain --lenient --help -h" ;;
        compat) flags="--lenient --both --help -h" ;;
        help | version) flags="--help -h" ;;
        *) return ;;
    esac
    case $before in
        -I)
            compopt -o filenames
            COMPREPLY=($(compgen -d -- "$current"))
            return
            ;;
        --out | -o | --descriptor_set_out)
            compopt -o filenames
            COMPREPLY=($(compgen -f -- "$current"))
            return
            ;;
    esac
    if [[ $current == -* ]]; then
        COMPREPLY=($(compgen -W "$flags" -- "$current"))
        return
    fi
    # The words before this one that are no flags nor their values.
    for ((at = 2; at < COMP_CWORD; at++)); do
        case ${COMP_WORDS[at]} in
            -I | --out | -o | --descriptor_set_out) at=$((at + 1)) ;;
            -*) ;;
            *) words+=("${COMP_WORDS[at]}") ;;
        esac
    done
    case $command,${#words[@]} in
        help,0) COMPREPLY=($(compgen -W "raw check show canon json text frames types compile compat from-json help version" -- "$current")) ;;
        check,1 | show,1 | canon,1 | json,1 | text,1 | frames,1 | from-json,1)
            names=$("${COMP_WORDS[0]}" types --lenient "${words[0]}" 2>/dev/null | awk '$1 == "message" { print $2 }')
            COMPREPLY=($(compgen -W "$names" -- "$current"))
            ;;
        compat,2)
            names=$("${COMP_WORDS[0]}" types --lenient "${words[0]}" 2>/dev/null | awk '$1 == "message" { print $2 }')
            COMPREPLY=($(compgen -W "$names" -- "$current"))
            ;;
        types,1)
            names=$("${COMP_WORDS[0]}" types --lenient "${words[0]}" 2>/dev/null | awk '$1 == "message" || $1 == "enum" { print $2 }')
            COMPREPLY=($(compgen -W "$names" -- "$current"))
            ;;
        compile,0)
            compopt -o filenames
            COMPREPLY=($(compgen -d -- "$current"))
            ;;
        *)
            compopt -o filenames
            COMPREPLY=($(compgen -f -- "$current"))
            ;;
    esac
}
complete -F _pbtool pbtool
