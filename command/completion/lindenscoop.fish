# Completion of lindenscoop for fish. scripts/test-install.py compares its words with those that the command takes.

set -l serial standard capture erlangen spa racal sysplex computime sat rmc
set -l all $serial frame block c37118
set -l framings 7E1 7E2 7N2 7O1 7O2 8E1 8E2 8N1 8N2 8O1 8O2

complete -c lindenscoop -n __fish_use_subcommand -f -a listen -d 'Print what a clock sends'
complete -c lindenscoop -n __fish_use_subcommand -f -a export -d 'A log as CSV or JSON'
complete -c lindenscoop -n __fish_use_subcommand -f -a runs -d 'Which seconds were heard'
complete -c lindenscoop -n __fish_use_subcommand -f -a why -d 'Why a log is silent'
complete -c lindenscoop -n __fish_use_subcommand -f -a write -d 'Strings of JSON lines'
complete -c lindenscoop -n __fish_use_subcommand -f -a simulate -d 'Strings without a clock'
complete -c lindenscoop -n __fish_use_subcommand -f -a help -d 'Print help'
complete -c lindenscoop -n __fish_use_subcommand -l version -d 'Print the version'
complete -c lindenscoop -l help -d 'Print help'

complete -c lindenscoop -n '__fish_seen_subcommand_from listen export runs' -l form -x -a "$serial" -d 'What the clock sends'
complete -c lindenscoop -n '__fish_seen_subcommand_from listen export runs simulate' -l baud -x -a '300 600 1200 2400 4800 9600 19200 38400 57600 115200' -d 'Bits a second'
complete -c lindenscoop -n '__fish_seen_subcommand_from listen export runs simulate' -l framing -x -a "$framings" -d 'Data bits, parity, stop bits'
complete -c lindenscoop -n '__fish_seen_subcommand_from listen' -l record -r -d 'Keep the bytes in a new file'
complete -c lindenscoop -n '__fish_seen_subcommand_from export runs' -l json -d 'An object to a line'
complete -c lindenscoop -n '__fish_seen_subcommand_from export runs' -l csv -d 'A line of names, then rows'
complete -c lindenscoop -n '__fish_seen_subcommand_from runs' -l svg -r -d 'Draw heard and missing seconds in a new file'
complete -c lindenscoop -n '__fish_seen_subcommand_from runs' -l title -x -d 'Title of the picture'
complete -c lindenscoop -n '__fish_seen_subcommand_from write' -a "$all" -d Form
complete -c lindenscoop -n '__fish_seen_subcommand_from simulate' -f -a "$all" -d Form
complete -c lindenscoop -n '__fish_seen_subcommand_from simulate' -l pty -d 'To a new pseudo-terminal'
complete -c lindenscoop -n '__fish_seen_subcommand_from simulate' -l to -r -d 'To a file, pipe or port'
complete -c lindenscoop -n '__fish_seen_subcommand_from simulate' -l damage -x -d 'Each Nth string is damaged'
complete -c lindenscoop -n '__fish_seen_subcommand_from simulate' -l count -x -d 'End after N strings'
complete -c lindenscoop -n '__fish_seen_subcommand_from simulate' -l interval -x -d 'Seconds between strings'
complete -c lindenscoop -n '__fish_seen_subcommand_from help' -f -a 'listen export runs why write simulate'
