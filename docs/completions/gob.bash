# Made by tools/words: completion of gob for bash, to be sourced, or put into a folder of bash-completion.
_gob() {
    local current=${COMP_WORDS[COMP_CWORD]} previous=${COMP_WORDS[COMP_CWORD - 1]} words=
    COMPREPLY=()
    case $previous in
    --depth | --item | --only | --as | --at | --types | --size | --values | --rename | --line | --type) return ;;
    esac
    if [ "$COMP_CWORD" -eq 1 ]; then
        words='values types why explain verify salvage split join show check rewrite take convert write make version help --help -h --version -V'
    elif [ "${COMP_WORDS[1]}" = help ]; then
        words='values types why explain verify salvage split join show check rewrite take convert write make version help'
    elif [[ $current == -* ]]; then
        words='--depth --item -h --help'
        case ${COMP_WORDS[1]} in
        values) words+=' --zeros --raw --tagged --typed --only --each --as --progress --salvage' ;;
        types) words+=' --main --progress --salvage' ;;
        explain) words+=' --fault --at' ;;
        verify) words+=' --progress' ;;
        salvage) words+=' --types' ;;
        split) words+=' --size --values' ;;
        show) words+=' --go --progress --salvage --numbers-as-text' ;;
        check) words+=' --go --progress' ;;
        rewrite) words+=' --go --hoist' ;;
        take) words+=' --go' ;;
        convert) words+=' --rename --all' ;;
        write) words+=' --go --line' ;;
        make) words+=' --line --types --type --lenient' ;;
        esac
    else
        mapfile -t COMPREPLY < <(compgen -f -- "$current")
        return
    fi
    mapfile -t COMPREPLY < <(compgen -W "$words" -- "$current")
}
complete -o filenames -F _gob gob
