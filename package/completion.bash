# Completion for bash of colfind and of the programs named colfind-.. that files.txt has.
_colfind() {
    local word=${COMP_WORDS[COMP_CWORD]} before=${COMP_WORDS[COMP_CWORD - 1]} weights search show
    # `--strength=1` is three words here
    if [[ $word == = ]]; then
        word=''
    elif [[ $before == = ]]; then
        before=${COMP_WORDS[COMP_CWORD - 2]}
    fi
    compopt -o filenames 2> /dev/null
    weights='--table --tailor --strength --variable'
    search="$weights --output --select"
    show='--line-number --mark --help --version'
    case $before in
    --strength) COMPREPLY=($(compgen -W '1 2 3' -- "$word")) && return ;;
    --variable) COMPREPLY=($(compgen -W 'shifted non-ignorable' -- "$word")) && return ;;
    --output) COMPREPLY=($(compgen -W 'ranges count marks' -- "$word")) && return ;;
    --select) COMPREPLY=($(compgen -W 'all chain' -- "$word")) && return ;;
    --mark) COMPREPLY=($(compgen -W 'brackets colour none' -- "$word")) && return ;;
    --sort) COMPREPLY=($(compgen -W 'text left right' -- "$word")) && return ;;
    --format) COMPREPLY=($(compgen -W 'text tsv json' -- "$word")) && return ;;
    --jobs | -j | --width) COMPREPLY=() && return ;;
    esac
    case ${word:0:1},${1##*/} in
    -,colfind) COMPREPLY=($(compgen -W "$search" -- "$word")) ;;
    -,colfind-show) COMPREPLY=($(compgen -W "$show --with-name --pipefail -n -H -h" -- "$word")) ;;
    -,colfind-files)
        COMPREPLY=($(compgen -W "$search $show --show --no-name --null --from0 --jobs -n -Z -j -h" -- "$word"))
        ;;
    -,colfind-mail) COMPREPLY=($(compgen -W "$weights --ids --mutt --help --version -l -h" -- "$word")) ;;
    -,colfind-concordance)
        COMPREPLY=($(compgen -W "$weights --sort --forms --format --width --from0 --help --version -h" -- "$word"))
        ;;
    -,colfind-tailor) COMPREPLY=($(compgen -W '--help --version -h' -- "$word")) ;;
    *)
        local IFS=$'\n'
        COMPREPLY=($(compgen -f -- "$word"))
        ;;
    esac
}
complete -F _colfind colfind colfind-show colfind-files colfind-tailor colfind-mail colfind-concordance
