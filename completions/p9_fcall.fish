# fish completion of p9_fcall, made by scripts/completions
complete -c p9_fcall -f
complete -c p9_fcall -n __fish_use_subcommand -l version -d 'Print version'
complete -c p9_fcall -n __fish_use_subcommand -a frames -d 'prints the frames of a script in words'
complete -c p9_fcall -n __fish_use_subcommand -a exchange -d 'prints an exchange in words'
