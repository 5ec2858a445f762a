# Completion of vest's words for fish: put it into ~/.config/fish/completions.
function __vest_lacks_command
    not __fish_seen_subcommand_from run translate list generate replay
end

function __vest_options_end
    contains -- -- (commandline -opc)
end

complete -c vest -f
complete -c vest -n __vest_lacks_command -a run -d 'runs an image or a translated file'
complete -c vest -n __vest_lacks_command -a translate -d 'writes the translated file of an image'
complete -c vest -n __vest_lacks_command -a list -d 'writes a line for each instruction that has a block'
complete -c vest -n __vest_lacks_command -a generate -d 'makes the image of a number, translates it and runs it'
complete -c vest -n __vest_lacks_command -a replay -d 'drives the threads of an image by a stored order'
complete -c vest -n '__fish_seen_subcommand_from run translate list replay' -F
complete -c vest -n '__fish_seen_subcommand_from run; and not __vest_options_end' -x -l budget -d 'the most steps of a processor'
complete -c vest -n '__fish_seen_subcommand_from run; and not __vest_options_end' -x -l events -d 'the most entries of the history'
complete -c vest -n '__fish_seen_subcommand_from run; and not __vest_options_end' -x -l miss -d 'every so many-th store conditional fails'
complete -c vest -n '__fish_seen_subcommand_from run; and not __vest_options_end' -l unkept -d 'the history is not kept'
complete -c vest -n '__fish_seen_subcommand_from run; and not __vest_options_end' -l live -d 'the program is talked with'
complete -c vest -n '__fish_seen_subcommand_from run; and not __vest_options_end' -x -l progress -d 'after how many steps more a line tells how far it has come'
complete -c vest -n '__fish_seen_subcommand_from run; and not __vest_options_end' -r -F -l order -d 'the file for the order of the references'
complete -c vest -n '__fish_seen_subcommand_from run; and not __vest_options_end' -x -l interpret -d 'a thread and the addresses that it interprets'
complete -c vest -n '__fish_seen_subcommand_from translate; and not __vest_options_end' -r -F -l hints -d 'a file of addresses from which code is looked for'
complete -c vest -n '__fish_seen_subcommand_from replay; and not __vest_options_end' -r -F -l hints -d 'the file for addresses that had to be interpreted'
complete -c vest -n '__fish_seen_subcommand_from run translate; and not __vest_options_end' -x -l target -a 'original byteword' -d 'what code is made for'
