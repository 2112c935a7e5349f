# Completion of tsvd's words for bash, which takes `=` for a word of its own: `--load emp=st` is four words, and `--schema=st` three.
_tsvd() {
    local word=${COMP_WORDS[COMP_CWORD]} before=${COMP_WORDS[COMP_CWORD - 1]} at=$COMP_CWORD
    if [[ $word == '=' ]]; then
        word='' before='='
    elif [[ $before == '=' ]]; then
        at=$((COMP_CWORD - 1))
    fi
    if [[ $word == ?*=* ]]; then
        # where `=` was taken out of COMP_WORDBREAKS
        case "$before $word" in
        '--load '* | *' --load='?*=* | *' --schema='* | *' --after='* | *' --script='* | *' --dump='*)
            mapfile -t COMPREPLY < <(compgen -f -P "${word%=*}=" -- "${word##*=}") ;;
        *) COMPREPLY=() ;;
        esac
        return
    fi
    if [[ $before == '=' ]]; then
        # --schema=FILE, --after=FILE, --script=FILE and --dump=FILE, --load TABLE=FILE and --load=TABLE=FILE
        case " ${COMP_WORDS[at - 1]} ${COMP_WORDS[at - 2]} ${COMP_WORDS[at - 3]} " in
        ' --schema '* | ' --after '* | ' --script '* | ' --dump '* | *' --load '*) mapfile -t COMPREPLY < <(compgen -f -- "$word") ;;
        *) COMPREPLY=() ;;
        esac
        [[ ${COMP_WORDS[at - 1]} != --load ]] || COMPREPLY=()
        return
    fi
    case $before in
    --schema | --after | --script | --dump) mapfile -t COMPREPLY < <(compgen -f -- "$word") ;;
    --listen | --sessions | --connections | --entries | --idle | --export | --load) COMPREPLY=() ;;
    *) mapfile -t COMPREPLY < <(compgen -W "--schema --after --script --listen --sessions --connections --entries --idle --log --load --export --dump --help --version" -- "$word") ;;
    esac
}
complete -o filenames -F _tsvd tsvd
