# Completions of rbacaudit-page for fish; see rbacaudit.fish.

complete -c rbacaudit-page -f
complete -c rbacaudit-page -s h -l help -d 'show this help message and exit'
complete -c rbacaudit-page -l lint -r -F -d 'findings to show with the rows: lines of rbacaudit lint'
complete -c rbacaudit-page -l diff -r -F -d 'changes to show with the rows: lines of rbacaudit diff'
complete -c rbacaudit-page -l paths -r -F -d 'paths to show with the rows: lines of rbacaudit paths or who-can --indirect'
complete -c rbacaudit-page -l reach -r -F -d 'how far principals reach whose paths are here only in part (see man)'
complete -c rbacaudit-page -l unasked -r -F -d 'principals whose paths the page lacks: u:NAME or g:NAME'
complete -c rbacaudit-page -l named -r -F -d 'holders limited to object names: verb, API group, resource, who, binding'
complete -c rbacaudit-page -l namespaced -r -F -d 'types that have namespaces: API group and resource'
complete -c rbacaudit-page -l notices -r -F -d 'lines to show at the top, such as what the rows lack'
complete -c rbacaudit-page -l about -r -F -d 'the about.txt of an export, to show cluster, server and time'
complete -c rbacaudit-page -l title -x -d 'the title of the page (default: Who can do what)'
complete -c rbacaudit-page -l output -r -F -d 'write the page into this file, whole or not at all'
complete -c rbacaudit-page -l plain -d 'pack nothing, for Firefox before version 113'
complete -c rbacaudit-page -l watched -d 'print the watch list: step, verb, API group and resource'
