# Completion of ospfd's words in bash.
_ospfd() {
    local word=${COMP_WORDS[COMP_CWORD]} before=${COMP_WORDS[COMP_CWORD - 1]} command=${COMP_WORDS[1]}
    local commands="table failures lsas path edit diff check sim run help" options='' files=''
    if [ "$COMP_CWORD" -eq 1 ]; then
        command=
        before=
        options="$commands --help --version"
    fi
    case $command in
    "") ;;
    table) options="--without --json --json2 --help" ;;
    failures) options="--each --strict --json --json2 --harm --carrier --help" ;;
    lsas) options="--dot --json --help" ;;
    edit) options="--down --cost --drain --help" ;;
    diff) options="--root --help" files=yes ;;
    check) options="--explain --all --area --json --json2 --help" files=yes ;;
    sim) options="--dot --pcap --log --json --strict --help" files=yes ;;
    run) options="--tick --lookup --floor --neighbours --listing --lsdb --drops --every --until-eof --pcap --log --log-lsas --json --help" files=yes ;;
    help) [ "$COMP_CWORD" -gt 2 ] || options=$commands ;;
    *) options="--help" ;;
    esac
    case $command$before in
    run--tick | run--lookup | run--floor | run--every | table--without | edit--down | edit--cost | edit--drain | diff--root) options='' files='' ;;
    failures--carrier) options="direct switch process" ;;
    sim--dot | sim--pcap | sim--log | run--pcap | run--log | run--log-lsas) options='' files=yes ;;
    esac
    # Outside of a completion, as in a test, there is nothing to set.
    [ -z "$files" ] || compopt -o filenames 2> /dev/null
    mapfile -t COMPREPLY < <(
        compgen -W "$options" -- "$word"
        [ -z "$files" ] || compgen -f -- "$word"
    )
}
complete -F _ospfd ospfd
