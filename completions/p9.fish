# fish completion of p9, made by scripts/completions
complete -c p9 -f
complete -c p9 -n __fish_use_subcommand -a play -d 'plays the script'
complete -c p9 -n __fish_use_subcommand -a check -d 'says whether what is hidden is out of reach'
complete -c p9 -n __fish_use_subcommand -a verify -d 'checks the certificate'
complete -c p9 -n __fish_use_subcommand -a ns -d 'prints the mount table'
complete -c p9 -n __fish_use_subcommand -a serve -d 'serves the input'
complete -c p9 -n '__fish_seen_subcommand_from serve' -s a -x -d 'the address'
complete -c p9 -n '__fish_seen_subcommand_from serve' -s r -x -d 'how many rounds'
