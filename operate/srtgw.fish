# Completion of srtgw's command line for fish.
function __srtgw_after --description 'Whether the first word is one of these commands'
    set -l given (commandline -opc)
    test (count $given) -ge 2; and contains -- $given[2] $argv
end
complete -c srtgw -f
complete -c srtgw -l help -d 'Print help'
complete -c srtgw -n __fish_use_subcommand -l version -d 'Print the version'
complete -c srtgw -n __fish_use_subcommand -a check -d 'How many routes a configuration has, or its first fault'
complete -c srtgw -n __fish_use_subcommand -a replay -d 'The result of each event of a tape'
complete -c srtgw -n __fish_use_subcommand -a explain -d 'Each line of a tape in words'
complete -c srtgw -n __fish_use_subcommand -a serve -d 'Serve callers for a number of rounds, without a log'
complete -c srtgw -n __fish_use_subcommand -a run -d 'Serve callers until it is stopped'
complete -c srtgw -n __fish_use_subcommand -a help -d 'The help of a command'
complete -c srtgw -n '__srtgw_after check replay explain serve run' -F
complete -c srtgw -n '__srtgw_after check' -l explain -d 'Say where each fault is and how to fix it, or warn'
complete -c srtgw -n '__srtgw_after check' -l addresses -d 'Bind its addresses once'
complete -c srtgw -n '__srtgw_after explain' -l output -r -F -d 'What replay printed for the tape'
complete -c srtgw -n '__srtgw_after serve' -l rounds -x -d 'How many times the socket is polled'
complete -c srtgw -n '__srtgw_after run' -l for -x -a '30s 10m 8h 7d' -d 'Stop after this time'
complete -c srtgw -n '__srtgw_after run' -l no-time -d 'Leave out the time of each line'
complete -c srtgw -n '__srtgw_after run' -l log -x -a 'text json' -d 'The form of the log'
complete -c srtgw -n '__srtgw_after help' -a 'check replay explain serve run'
