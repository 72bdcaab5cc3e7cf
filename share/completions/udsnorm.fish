# Completions of udsnorm for fish: the commands and options that its help tells.

function __udsnorm_help
    set -l words (commandline -opc)
    udsnorm $words[2] --help 2>/dev/null
end

function __udsnorm_options
    __udsnorm_help | string replace -rf '^ +(?:-., )?(--[a-z-]+)(?: <[A-Z]+>)?  +(.*)' '$1\t$2'
end

# The value that the option before has where none is given.
function __udsnorm_default
    set -l words (commandline -opc)
    __udsnorm_help | string replace -rf "^ +$words[-1] <[A-Z]+> .*\[default: (\w+)\]" '$1'
end

# Whether the option before has a value that is no file.
function __udsnorm_no_file
    set -l words (commandline -opc)
    __udsnorm_help | string match -rq -- "^ +$words[-1] <(?!FILE>)"
end

complete -c udsnorm -n __fish_use_subcommand -f \
    -a "(udsnorm --help 2>/dev/null | string replace -rf '^  ([a-z]+)  +(.*)' '\$1\t\$2')"
complete -c udsnorm -n 'string match -q -- "-*" (commandline -ct)' -f -a '(__udsnorm_options)'
complete -c udsnorm -n __udsnorm_no_file -f -a '(__udsnorm_default)'
