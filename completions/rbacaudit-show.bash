# Completions of rbacaudit-show for bash; see rbacaudit.bash.

_rbacaudit_show() {
    local words='-o --output --no-headers --color --rules --indirect -h --help -V --version'
    case ${COMP_WORDS[COMP_CWORD - 1]} in
        -o | --output) words='table wide json name' ;;
        --color) words='auto always never' ;;
        --rules)
            mapfile -t COMPREPLY < <(compgen -f -- "${COMP_WORDS[COMP_CWORD]}")
            return
            ;;
    esac
    mapfile -t COMPREPLY < <(compgen -W "$words" -- "${COMP_WORDS[COMP_CWORD]}")
}

complete -F _rbacaudit_show rbacaudit-show
