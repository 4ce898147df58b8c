# Completion of signage for fish: put it into share/fish/vendor_completions.d.
set -l commands preview serve edit report
complete -c signage -f
complete -c signage -n "not __fish_seen_subcommand_from $commands" -a preview -d 'what a display shows at given moments'
complete -c signage -n "not __fish_seen_subcommand_from $commands" -a serve -d 'answer HTTP over a file of records'
complete -c signage -n "not __fish_seen_subcommand_from $commands" -a edit -d 'do the edits of standard input'
complete -c signage -n "not __fish_seen_subcommand_from $commands" -a report -d 'count the plays of a file as CSV'
complete -c signage -n '__fish_seen_subcommand_from serve edit report' -l db -r -F -d 'file of records'
complete -c signage -n '__fish_seen_subcommand_from serve' -l listen -x -d 'address and port'
complete -c signage -n '__fish_seen_subcommand_from serve' -l key -x -d 'key of the operator'
complete -c signage -n '__fish_seen_subcommand_from serve' -l connections -x -d 'end after so many'
complete -c signage -n '__fish_seen_subcommand_from report' -l from -x -d 'first Unix second'
complete -c signage -n '__fish_seen_subcommand_from report' -l to -x -d 'Unix second after the last'
