# Completions of rbacaudit-page for bash; see rbacaudit.bash.

_rbacaudit_page() {
    COMPREPLY=()
    case ${COMP_WORDS[COMP_CWORD - 1]} in
        --lint | --diff | --paths | --reach | --unasked | --named | --namespaced | --notices | --about | --output)
            compopt -o default # a FILE, which readline knows best
            ;;
        --title) ;;
        *)
            mapfile -t COMPREPLY < <(compgen -W '--lint --diff --paths --reach --unasked --named --namespaced --notices --about \
                --title --output --plain --watched -h --help' -- "${COMP_WORDS[COMP_CWORD]}")
            ;;
    esac
}

complete -F _rbacaudit_page rbacaudit-page
