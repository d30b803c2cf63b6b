# Completion of bench61499 for fish.
set -l commands script serve host help
complete -c bench61499 -f
complete -c bench61499 -n "not __fish_seen_subcommand_from $commands" -a script -d 'Answer standard input'
complete -c bench61499 -n "not __fish_seen_subcommand_from $commands" -a serve -d 'Serve a fixed number of sessions'
complete -c bench61499 -n "not __fish_seen_subcommand_from $commands" -a host -d 'Serve for as long as it runs'
complete -c bench61499 -n "not __fish_seen_subcommand_from $commands" -a help -d 'Show the commands'
complete -c bench61499 -n '__fish_seen_subcommand_from help' -a 'script serve host'
complete -c bench61499 -l help -d 'Show the options'
complete -c bench61499 -n '__fish_seen_subcommand_from script serve host' -x -l units -d 'The most units, 1 to 16384'
complete -c bench61499 -n '__fish_seen_subcommand_from script serve host' -x -l history -d 'The most recorded calls, 1 to 10000000'
complete -c bench61499 -n '__fish_seen_subcommand_from serve host' -x -l port -d 'The port, 0 for any free one'
complete -c bench61499 -n '__fish_seen_subcommand_from serve host' -x -l workers -d 'Threads that compute answers, 1 to 16'
complete -c bench61499 -n '__fish_seen_subcommand_from serve host' -x -l sessions -d 'How many sessions, 1 to 64, of a host 255'
complete -c bench61499 -n '__fish_seen_subcommand_from host' -x -l memory -d 'Bytes of texts after which the history begins again'
complete -c bench61499 -n '__fish_seen_subcommand_from host' -r -F -l secret -d 'A file whose first line is the secret'
complete -c bench61499 -n '__fish_seen_subcommand_from host' -f -l open -d 'No secret'
complete -c bench61499 -n '__fish_seen_subcommand_from host' -x -l idle -d 'Minutes after which a silent session ends, 0 to 10080'
complete -c bench61499 -n '__fish_seen_subcommand_from host' -x -l connections -d 'Sessions after which it closes'
