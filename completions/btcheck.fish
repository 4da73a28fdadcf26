# Completion of btcheck for fish.

set -l commands root show check join create assemble replay convert help
set -l none "not __fish_seen_subcommand_from $commands"

# How many arguments stand after the command.
function __btcheck_arguments
    set -l words (commandline -opc)
    set -l found (string match -v -- '-*' $words)
    set -l valued (string match -r -- '^(-o|--(seed|answers|name|piece-length|exclude|part))$' $words)
    math (count $found) - (count $valued) - 2
end

complete -c btcheck -f
complete -c btcheck -s h -l help -d 'Print help'
complete -c btcheck -n $none -s V -l version -d 'Print the version'

complete -c btcheck -n $none -a root -d 'Print the length and the pieces root of a file'
complete -c btcheck -n '__fish_seen_subcommand_from root' -F

complete -c btcheck -n $none -a show -d 'Print what a torrent holds'
complete -c btcheck -n '__fish_seen_subcommand_from show' -k -a '(__fish_complete_suffix .torrent)'

complete -c btcheck -n '__fish_seen_subcommand_from show' -l long -d 'Print sums too'

complete -c btcheck -n $none -a check -d 'Check that a folder holds the files of a torrent'
complete -c btcheck -n '__fish_seen_subcommand_from check; and test (__btcheck_arguments) -eq 0' \
    -k -a '(__fish_complete_suffix .torrent)'
complete -c btcheck -n '__fish_seen_subcommand_from check; and test (__btcheck_arguments) -eq 1' \
    -a '(__fish_complete_directories)'
complete -c btcheck -n '__fish_seen_subcommand_from check' -s q -l quiet -d 'Print only what is not good'
complete -c btcheck -n '__fish_seen_subcommand_from check' -l bad -d 'Print the runs of bad pieces'
complete -c btcheck -n '__fish_seen_subcommand_from check' -l extra -d 'Print files that the torrent does not name'
complete -c btcheck -n '__fish_seen_subcommand_from check' -l summary -d 'Print counts and the speed'
complete -c btcheck -n '__fish_seen_subcommand_from check' -l part -x -d 'Check one part alone, as 1/4'

complete -c btcheck -n $none -a join -d 'Join the reports of all parts of a check'
complete -c btcheck -n '__fish_seen_subcommand_from join; and test (__btcheck_arguments) -eq 0' \
    -k -a '(__fish_complete_suffix .torrent)'
complete -c btcheck -n '__fish_seen_subcommand_from join; and test (__btcheck_arguments) -gt 0' -F

complete -c btcheck -n '__fish_seen_subcommand_from root show check join replay' -s j -l json -d 'Print each line as a JSON object'

complete -c btcheck -n '__fish_seen_subcommand_from root show check join create assemble convert replay' -l reasons \
    -d 'Print the reasons of the system'

complete -c btcheck -n $none -a create -d 'Make a torrent of all files in a folder, or of one file'
complete -c btcheck -n '__fish_seen_subcommand_from create; and test (__btcheck_arguments) -eq 0' \
    -a '(__fish_complete_directories)'
complete -c btcheck -n '__fish_seen_subcommand_from create; and test (__btcheck_arguments) -eq 1' -F
complete -c btcheck -n '__fish_seen_subcommand_from create' -l name -x -d 'The display name'
complete -c btcheck -n '__fish_seen_subcommand_from create' -l piece-length -x -a auto -d 'Bytes per piece'
complete -c btcheck -n '__fish_seen_subcommand_from create' -l hybrid -d 'Make a hybrid'
complete -c btcheck -n '__fish_seen_subcommand_from create' -l no-clobber -d 'Do not write a file that is there'
complete -c btcheck -n '__fish_seen_subcommand_from create' -l exclude -x -d 'Leave out what matches'
complete -c btcheck -n '__fish_seen_subcommand_from create' -l file -r -d 'Make it of this file'
complete -c btcheck -n '__fish_seen_subcommand_from create' -l follow-symlinks -d 'Take what links lead to'
complete -c btcheck -n '__fish_seen_subcommand_from create' -l skip-special -d 'Leave out what is neither file nor folder'

complete -c btcheck -n '__fish_seen_subcommand_from create' -l part -x -d 'Hash one part alone, as 1/4'

complete -c btcheck -n $none -a assemble -d 'Assemble a torrent of what all parts hashed'
complete -c btcheck -n '__fish_seen_subcommand_from assemble' -F

complete -c btcheck -n $none -a convert -d 'Add directions to a record that has none'
complete -c btcheck -n '__fish_seen_subcommand_from convert; and test (__btcheck_arguments) -lt 2' -F

complete -c btcheck -n $none -a replay -d 'Check recorded messages of peers'
complete -c btcheck -n '__fish_seen_subcommand_from replay; and test (__btcheck_arguments) -eq 0' \
    -k -a '(__fish_complete_suffix .torrent)'
complete -c btcheck -n '__fish_seen_subcommand_from replay; and test (__btcheck_arguments) -eq 1' -F
complete -c btcheck -n '__fish_seen_subcommand_from replay' -l info-only -d 'Start from the roots alone'
complete -c btcheck -n '__fish_seen_subcommand_from replay' -l seed -x \
    -a '(__fish_complete_directories)' -d 'Also start from the files of a folder'
complete -c btcheck -n '__fish_seen_subcommand_from replay' -s o -l answers -r -F \
    -d 'Write the answers to hash requests'
complete -c btcheck -n '__fish_seen_subcommand_from replay' -l padded -d 'Take last blocks with zeros behind them'
complete -c btcheck -n '__fish_seen_subcommand_from replay' -l pieces -d 'Hold blocks until their piece is whole'
complete -c btcheck -n '__fish_seen_subcommand_from replay' -l summary -d 'Print how much is verified'

complete -c btcheck -n $none -a help -d 'Print help on a command'
complete -c btcheck -n "__fish_seen_subcommand_from help; and test (__btcheck_arguments) -eq 0" \
    -a "$commands"
