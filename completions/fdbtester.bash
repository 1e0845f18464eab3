# Completion of fdbtester for bash, made by scripts/made from the table of words, scripts/launcher/words.py.
_fdbtester() {
    local word=${COMP_WORDS[COMP_CWORD]} before=${COMP_WORDS[COMP_CWORD-1]} words="" options="" file_at=none place=0 at
    COMPREPLY=()
    if ((COMP_CWORD == 1)); then
        mapfile -t COMPREPLY < <(compgen -W "run replay gen watch asm disasm shell help --help --version --build --dist --install --try --test --where" -- "$word")
        return
    fi
    case $before in --seed|--polls|--window) return ;; esac
    for ((at = 2; at < COMP_CWORD; at++)); do
        case ${COMP_WORDS[at]} in
        --seed|--polls|--window) ((at++)) ;;
        -*) ;;
        *) ((place++)) ;;
        esac
    done
    case ${COMP_WORDS[1]} in
        run) ((place == 1)) && words="630 500"; options="--seed --polls --window --help"; file_at=2 ;;
        replay) ((place == 1)) && words="630 500"; options="--seed --polls --window --help"; file_at=2 ;;
        gen) options="--help"; file_at=none ;;
        watch) options="--help"; file_at=0 ;;
        asm) options="--help"; file_at=0 ;;
        disasm) options="--help"; file_at=0 ;;
        shell) options="--help"; file_at=0 ;;
        help) words="run replay gen watch asm disasm shell" ;;
        --install) mapfile -t COMPREPLY < <(compgen -d -- "$word"); return ;;
    esac
    [[ $word == -* ]] && words=$options
    mapfile -t COMPREPLY < <(compgen -W "$words" -- "$word")
    if [[ $place == "$file_at" && $word != -* ]]; then
        mapfile -t COMPREPLY < <(compgen -f -- "$word")
    fi
}
complete -o filenames -F _fdbtester fdbtester ./fdbtester
