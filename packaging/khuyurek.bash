# Completion of khuyurek for bash.

_khuyurek() {
    local word=${COMP_WORDS[COMP_CWORD]} before=${COMP_WORDS[COMP_CWORD - 1]} subcommand=${COMP_WORDS[1]}
    local subcommands="list check compare report find blocks convert" options
    COMPREPLY=()
    if [[ $before == --kind ]]; then
        mapfile -t COMPREPLY < <(compgen -W "aco ase acb descriptor resource" -- "$word")
        return
    fi
    # In the repository the command also installs.
    [[ ! -d $(dirname -- "${COMP_WORDS[0]}")/packaging ]] || subcommands+=" build install uninstall release"
    if ((COMP_CWORD == 1)) && [[ $word != -* ]]; then
        mapfile -t COMPREPLY < <(compgen -W "$subcommands" -- "$word")
    fi
    case $subcommand in
        list) options="--exact --json --kind --progress --help" ;;
        blocks) options="--exact --json --progress --help" ;;
        check) options="--json --kind --progress --help" ;;
        report) options="--json --merge --kind --progress --help" ;;
        compare | find) options="--json --kind --help" ;;
        convert) options="--force --json --kind --help" ;;
        build | install | uninstall | release) options="--help" ;;
        *) options="--kind --help --version" ;;
    esac
    if [[ $word == -* ]]; then
        mapfile -t COMPREPLY < <(compgen -W "$options" -- "$word")
    fi
}

# Names of files stand beside what is completed here.
complete -o default -o bashdefault -F _khuyurek khuyurek
