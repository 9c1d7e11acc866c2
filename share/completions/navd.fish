# Completion of navd's words for fish.
complete -c navd -f
complete -c navd -n '__fish_use_subcommand' -a run -d 'answer requests, one a line'
complete -c navd -n '__fish_use_subcommand' -a lsp -d 'answer an editor'
complete -c navd -n '__fish_use_subcommand' -a once -d 'the definitions of one node of one graph file'
complete -c navd -n '__fish_use_subcommand' -a upgrade -d 'a graph file with named nodes'
complete -c navd -n '__fish_use_subcommand' -a serve -d 'answer clients: port, doors, connections'
complete -c navd -n '__fish_use_subcommand' -a demo -d 'a made tree, committed and queried'
