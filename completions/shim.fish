# Completion of shim, shim-see and shim-draw for fish.

# Whether so many words stand there that are no options: the tool itself counts. With a second argument, or more of them.
function __shim_plain
    set -l count 0
    set -l skip 0
    for word in (commandline -opc)
        if test $skip = 1
            set skip 0
        else if string match -qr -- '^--(raw|help|version|steal)$|=' $word
        else if string match -q -- '-*' $word
            set skip 1
        else
            set count (math $count + 1)
        end
    end
    test $count = $argv[1]; or test (count $argv) = 2 -a $count -gt $argv[1]
end

function __shim_seen
    contains -- $argv[1] (commandline -opc)
end

for tool in shim shim-see shim-draw
    complete -c $tool -f
    complete -c $tool -n '__shim_plain 2; and not __shim_seen gen' -a '(__fish_complete_suffix .shim)'
    complete -c $tool -l input -r -F -d 'the bytes that get takes'
    complete -c $tool -l budget -x -a '1000 100000 1000000 4000000' -d 'steps at most'
end
for tool in shim shim-see
    complete -c $tool -n '__shim_plain 1' -a run -d 'the report of a run'
    complete -c $tool -n '__shim_plain 1' -a ref -d 'the report of what the program means'
    complete -c $tool -n '__shim_plain 1' -a why -d 'the report, and who waits for whom'
    complete -c $tool -n '__shim_plain 1' -a check -d 'whether anything is refused'
    complete -c $tool -n '__shim_plain 1' -a code -d 'the instructions of a source'
    complete -c $tool -n '__shim_plain 1' -a up -d 'the source in version 2'
    complete -c $tool -n '__shim_plain 1' -a gen -d 'run a program that is made'
    complete -c $tool -n '__shim_plain 1' -a trace -d 'the journal of a run'
    complete -c $tool -n '__shim_plain 1' -a replay -d 'the run that a journal tells'
    complete -c $tool -n '__shim_plain 1' -a batch -d 'runs over several inputs'
    complete -c $tool -n '__shim_plain 3 or-more; and __shim_seen batch' -F
    complete -c $tool -n '__shim_plain 2; and __shim_seen gen' -a 'pipe tree storm'
    complete -c $tool -l workers -x -a '1 2 4 8 16' -d 'threads at most'
    complete -c $tool -l quantum -x -a '1 64 10000' -d 'steps of a first piece'
    complete -c $tool -l size -x -a '100 1000 10000 100000' -d 'the size of what gen makes'
    complete -c $tool -l journal -r -F -d 'the journal of replay'
    complete -c $tool -l steal -d 'workers steal their work'
end
complete -c shim-see -l raw -d 'the bytes of shim alone'
complete -c shim-see -l help -d 'say modes, options and statuses'
complete -c shim-see -l version -d 'say which build this is'
complete -c shim-draw -n '__shim_plain 1' -a run -d 'a sequence diagram'
complete -c shim-draw -n '__shim_plain 1' -a why -d 'a graph of waits'
complete -c shim-draw -n 'not __shim_seen why' -l journal -r -F -d 'the run that this journal records'
complete -c shim-draw -n 'not __shim_seen why' -l from -x -d 'the first step'
complete -c shim-draw -n 'not __shim_seen why' -l to -x -d 'the last step'
complete -c shim-draw -n 'not __shim_seen why' -l channels -x -d 'names with commas between'
complete -c shim-draw -l output -r -F -d 'the picture'
complete -c shim-draw -l help -d 'print the arguments'
