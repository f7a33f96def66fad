# bash completion for fitsed

_fitsed() {
    local word=${COMP_WORDS[COMP_CWORD]} before=${COMP_WORDS[COMP_CWORD - 1]}
    local command=${COMP_WORDS[1]} flags
    COMPREPLY=()
    if [ "$COMP_CWORD" -eq 1 ]; then
        mapfile -t COMPREPLY < <(compgen -W 'edit ask cards keys diff list sum stat verify help --help --version' -- "$word")
        return
    fi
    case $before in
        -e | --line | -k | --name | -u | --hdu | -b | --backup) return ;;
        help)
            mapfile -t COMPREPLY < <(compgen -W 'edit ask cards keys diff list sum stat verify' -- "$word")
            return
            ;;
    esac
    case $command in
        keys) flags='--hdu --name --recursive --files0-from --progress --verbose' ;;
        diff) flags='--script --verbose' ;;
        edit) flags='--all --check --warnings --sums --tables --in-place --done --no-clobber --safe --overwrite --backup --line --file --extended --with-filename --recursive --progress --verbose' ;;
        ask) flags='--line --file --extended --tables --with-filename --json --recursive --files0-from --progress --verbose' ;;
        cards) flags='--hdu --name --files-without --null --with-filename --json --recursive --files0-from --progress --verbose' ;;
        list) flags='--long --with-filename --json --recursive --files0-from --progress --verbose' ;;
        stat) flags='--with-filename --json --recursive --files0-from --progress --verbose' ;;
        sum) flags='--check --with-filename --json --recursive --files0-from --progress --verbose' ;;
        verify) flags='--errors --quiet --print-cards --summary --tables --warnings --files-with-errors --null --with-filename --json --recursive --files0-from --progress --verbose' ;;
        *) return ;;
    esac
    case $word in
        -*) mapfile -t COMPREPLY < <(compgen -W "$flags --help" -- "$word") ;;
        *) mapfile -t COMPREPLY < <(compgen -f -- "$word") ;;
    esac
}
complete -o filenames -F _fitsed fitsed
