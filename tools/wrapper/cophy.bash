# Completion of cophy, cophy-pg and cophy-lint for bash: source this file.

_cophy_files() { mapfile -t COMPREPLY < <(compgen -f -- "$1"); }

_cophy_words() { mapfile -t COMPREPLY < <(compgen -W "$1" -- "$2"); }

_cophy() {
    local current="${COMP_WORDS[COMP_CWORD]}" at=$COMP_CWORD command="${COMP_WORDS[1]-}"
    if [ "$command" = --unproved ]; then
        command="${COMP_WORDS[2]-}"
        at=$((at - 1))
    fi
    COMPREPLY=()
    case "$at:$command" in
        0:* | 1:*)
            local words="cost explain whatif candidates advise check sweep retune ruled check-ruled fold bench"
            if [ "${COMP_WORDS[1]-}" != --unproved ] || [ "$COMP_CWORD" -eq 1 ]; then words+=" help version --unproved"; fi
            _cophy_words "$words" "$current"
            ;;
        [23]:cost | [23]:explain | [23]:whatif | [23]:candidates | [23]:advise | [23]:check | [23]:sweep) _cophy_files "$current" ;;
        [23]:ruled | [2345]:check-ruled | [234]:fold | [234]:retune) _cophy_files "$current" ;;
        4:explain | 4:whatif | 4:check | 5:ruled) _cophy_files "$current" ;;
        6:retune) _cophy_words "--nodes" "$current" ;;
        [5678]:advise | [6789]:ruled | [789]:sweep | 10:sweep)
            case "${COMP_WORDS[COMP_CWORD - 1]}" in
                --cert) _cophy_files "$current" ;;
                --nodes) ;;
                *) _cophy_words "--nodes --cert" "$current" ;;
            esac
            ;;
    esac
}

_cophy_pg() {
    local current="${COMP_WORDS[COMP_CWORD]}" command="${COMP_WORDS[1]-}" options="--help"
    local rewriting=" --no-ranges --no-rows --no-limits --no-look-ups --no-deletes --no-insert-share"
    COMPREPLY=()
    if [ "$COMP_CWORD" -eq 1 ]; then
        local words="advise make effect report health daily changes edits setup snapshot export rewrite rules ddl verify why curve"
        _cophy_words "$words --help --version" "$current"
        return
    fi
    case "$command" in
        advise | daily)
            if [ "$command" = daily ]; then options+=" --keep"; fi
            options+=" --budget --folder --since --min-calls --min-saving --planning --rules --long-columns --most-per-table --no-curve --patience --table --user --nodes --sql --log"
            options+=" --may-cluster --include --verbose"
            options+="$rewriting --dsn --timeout --i-trust-the-statements --program --json"
            ;;
        health) options+=" --folder --min-size --dsn --timeout --program --json" ;;
        changes) options+=" --json" ;;
        make) options+=" --without --only --all --undo --yes --psql --as-owner" ;;
        effect) options+=" --dsn --timeout --i-trust-the-statements --json" ;;
        edits) options+=" --output --advise" ;;
        report) options+=" --output" ;;
        setup) options+=" --psql --undo" ;;
        snapshot) options+=" --dsn --timeout" ;;
        export) options+=" --dsn --sql --log --report --since --min-calls --table --user --may-cluster --timeout$rewriting --program" ;;
        rewrite) options+=" --report$rewriting --program" ;;
        rules) options+=" --skip-unknown" ;;
        ddl) options+=" --script --include --also --unadvised --rows-a-second --order --pages-a-second --json" ;;
        verify)
            options+=" --dsn --sql --log --since --min-calls --table --user --timeout --i-trust-the-statements"
            options+=" --advice --rules --json --include --program"
            ;;
        why) options+=" --json --program" ;;
        curve) options+=" --budgets --even --steps --nodes --png --json --program" ;;
    esac
    case "$current" in
        -*) _cophy_words "$options" "$current" ;;
        *) _cophy_files "$current" ;;
    esac
}

_cophy_lint() {
    local current="${COMP_WORDS[COMP_CWORD]}"
    case "$current" in
        -*) _cophy_words "--help --rules --edits --version" "$current" ;;
        *) _cophy_files "$current" ;;
    esac
}

complete -o filenames -F _cophy cophy
complete -o filenames -F _cophy_pg cophy-pg
complete -o filenames -F _cophy_lint cophy-lint
