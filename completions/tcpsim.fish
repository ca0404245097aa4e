# fish completion for tcpsim and the tools beside it. What is no option is the name of a file.
complete -c tcpsim -n __fish_use_subcommand -f -a asm -d 'Write the image of a scenario'
complete -c tcpsim -n __fish_use_subcommand -f -a dis -d 'Write the canonical text of a scenario'
complete -c tcpsim -n __fish_use_subcommand -f -a run -d 'Run a scenario and print its trace'
complete -c tcpsim -n __fish_use_subcommand -f -a figures -d 'Run a scenario and print its figures'
complete -c tcpsim -n __fish_use_subcommand -f -a debug -d 'Walk through a run by commands, forwards and backwards'
complete -c tcpsim -n __fish_use_subcommand -f -a explain -d 'Say what a code means, or list all codes'
complete -c tcpsim -n '__fish_seen_subcommand_from explain' -f -a '(tcpsim explain 2>/dev/null </dev/null | string replace -r ":.*" "")'
complete -c tcpsim -s h -l help -d 'Print help'
complete -c tcpsim -n __fish_use_subcommand -s V -l version -d 'Print version'
complete -c tcpsim -n '__fish_seen_subcommand_from run debug' -l workers -x -a '1 2 4 8 16 32 64' -d 'Run the groups by so many workers, 1 to 64'
complete -c tcpsim -n '__fish_seen_subcommand_from run debug' -l groups -x -a 'one each auto' -d 'Which group each node is in, or a number a node with commas between'
complete -c tcpsim -n '__fish_seen_subcommand_from figures' -x -l from -d 'Count from this moment on, as 1.5s or 20ms'
complete -c tcpsim -n '__fish_seen_subcommand_from figures' -x -l every -d 'Print rows by time behind the table, in steps as 1.5s or 20ms'
complete -c tcpsim -n '__fish_seen_subcommand_from figures' -l series -d 'Print the rows of --every without the table'
complete -c tcpsim -n '__fish_seen_subcommand_from figures' -l names -d 'Print the names of flows and links in a last column'
complete -c tcpsim -n '__fish_seen_subcommand_from run figures' -l progress -d 'Say on standard error how far the run is'
complete -c tcpsim -n '__fish_seen_subcommand_from asm dis run figures debug' -l explain -d 'Show on standard error why an input is refused'

# The options that a tool's help lists, behind the shape of tcpsim-net those of the shape.
function __tcpsim_options
    set -l words (commandline -opc)
    set -l command $words[1]
    if string match -q '*tcpsim-net' -- $command; and set -q words[2]
        set -a command $words[2]
    end
    $command --help 2>/dev/null </dev/null | string match -r '^  -.*' | string trim | string replace -r '  .*' '' | string split ', ' | string replace -r ' .*' ''
end

function __tcpsim_shapes
    tcpsim-net --help 2>/dev/null </dev/null | string replace -rf '^    ([a-z][a-z-]+)( .*)?$' '$1'
end

for tool in run debug model flows plot net sweep find follow stalls time diff replay
    complete -c tcpsim-$tool -n 'string match -q -- "-*" (commandline -ct)' -f -a '(__tcpsim_options)'
end
complete -c tcpsim-net -n 'test (count (commandline -opc)) -eq 1' -f -a '(__tcpsim_shapes)'
