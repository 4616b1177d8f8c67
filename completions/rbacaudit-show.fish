# Completions of rbacaudit-show for fish; see rbacaudit.fish.

complete -c rbacaudit-show -f
complete -c rbacaudit-show -s o -l output -x -a 'table wide json name' -d 'how lines are shown'
complete -c rbacaudit-show -l no-headers -d 'a table without its head'
complete -c rbacaudit-show -l color -x -a 'auto always never' -d 'when rows have colors'
complete -c rbacaudit-show -l rules -r -F -d 'lines of rules, for --why'
complete -c rbacaudit-show -l indirect -d 'take lines as those of who-can --indirect, not of paths'
complete -c rbacaudit-show -s h -l help -d 'print help'
complete -c rbacaudit-show -s V -l version -d 'print version'
