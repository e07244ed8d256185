# Completion of arbiter for fish. Written by hand; tests/test_share.py compares it with what the program's own help says.

complete -c arbiter -f

complete -c arbiter -n __fish_use_subcommand -a run -d 'Reads a script on standard input and answers each line'
complete -c arbiter -n __fish_use_subcommand -a check -d 'Reads one certified text on standard input: whether its amounts are the plan'
complete -c arbiter -n __fish_use_subcommand -a help -d 'Print this message or the help of the given subcommand(s)'
complete -c arbiter -n __fish_use_subcommand -s V -l version -d 'Print version'
complete -c arbiter -n 'not __fish_seen_subcommand_from help' -s h -l help -d 'Print help'

set -l in_run '__fish_seen_subcommand_from run; and not __fish_seen_subcommand_from help'
complete -c arbiter -n $in_run -l processors -x -a '1 2 4 8 16 32 64' -d 'Processors of the host, 1 to 64 (default 1)'
complete -c arbiter -n $in_run -l period -x -a '10000 100000 1000000' -d 'Its period in microseconds, 1000 to 1000000 (default 100000)'
complete -c arbiter -n $in_run -l slice -x -a '1000 2000 5000 10000' -d 'Its slice in microseconds, 1000 to the period, which it divides (default 5000)'

complete -c arbiter -n '__fish_seen_subcommand_from help; and not __fish_seen_subcommand_from run check' -a 'run check help'
