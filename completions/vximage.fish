# Completion of vximage's words for fish: put it into ~/.config/fish/completions.
function __vximage_lacks_command
    not __fish_seen_subcommand_from make show dis
end

function __vximage_options_end
    contains -- -- (commandline -opc)
end

complete -c vximage -f
complete -c vximage -n __vximage_lacks_command -a make -d 'writes the image of parts, or of a static ELF executable'
complete -c vximage -n __vximage_lacks_command -a show -d 'says what an image or a translated file has'
complete -c vximage -n __vximage_lacks_command -a dis -d 'lists the code of an image or a translated file'
complete -c vximage -n '__fish_seen_subcommand_from make show dis' -F
complete -c vximage -n '__fish_seen_subcommand_from make; and not __vximage_options_end' -x -l section -d 'a section from A on'
complete -c vximage -n '__fish_seen_subcommand_from make; and not __vximage_options_end' -x -l thread -d 'a thread that begins at PC with this SP'
complete -c vximage -n '__fish_seen_subcommand_from make; and not __vximage_options_end' -x -l entry -d 'an address from which instructions are looked for'
complete -c vximage -n '__fish_seen_subcommand_from make; and not __vximage_options_end' -r -F -l entries -d 'each line begins with an entry'
complete -c vximage -n '__fish_seen_subcommand_from make; and not __vximage_options_end' -r -F -l elf -d 'the image of this executable'
complete -c vximage -n '__fish_seen_subcommand_from make; and not __vximage_options_end' -x -l start -d 'a thread begins at the instruction at A'
complete -c vximage -n '__fish_seen_subcommand_from make; and not __vximage_options_end' -x -l stack -d 'the bytes of each thread\'s stack'
complete -c vximage -n '__fish_seen_subcommand_from make; and not __vximage_options_end' -x -l functions -a 'procedures routines none' -d 'what symbols of functions are'
complete -c vximage -n '__fish_seen_subcommand_from dis; and not __vximage_options_end' -l alpha -d 'the Alpha words of each instruction\'s block'
complete -c vximage -n '__fish_seen_subcommand_from dis; and not __vximage_options_end' -x -l from -d 'the first address of which lines are listed'
complete -c vximage -n '__fish_seen_subcommand_from dis; and not __vximage_options_end' -x -l to -d 'the last address of which lines are listed'
complete -c vximage -n '__fish_seen_subcommand_from dis; and not __vximage_options_end' -r -F -l names -d 'names of addresses'
