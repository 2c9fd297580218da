# Completion of dezghuri for fish.

function __dezghuri_in
    set -l words (commandline -opc)
    test (count $words) -ge 2; and contains -- $words[2] $argv
end

set -l commands plan check show loss diff moves certify what-if stage undo apply history report record help
complete -c dezghuri -n "not __dezghuri_in $commands" -f -a "$commands"
complete -c dezghuri -n "not __dezghuri_in $commands" -l version -d 'tell the version'
complete -c dezghuri -n '__dezghuri_in help' -f -a "$commands"
complete -c dezghuri -n '__dezghuri_in stage; and test (count (commandline -opc)) -eq 3' -f -a 'add remove resize show'
complete -c dezghuri -n '__dezghuri_in plan check show loss diff moves certify report' -l staged -d 'with all staged changes made'
complete -c dezghuri -n '__dezghuri_in plan certify what-if report record' -l former -r -d 'the layout to start from'
complete -c dezghuri -n '__dezghuri_in plan certify report record' -l out -r -d 'where it goes'
complete -c dezghuri -n '__dezghuri_in plan' -l allowance -x -d 'improvements at most'
complete -c dezghuri -n '__dezghuri_in plan' -l replace -d 'replace the layout that is there'
complete -c dezghuri -n '__dezghuri_in plan' -l damaged-anyway -d 'start from a layout that is not what was written'
complete -c dezghuri -n '__dezghuri_in plan' -l record -r -d 'plan a cluster record'
complete -c dezghuri -n '__dezghuri_in show' -l box -x -d 'the partitions of a box'
complete -c dezghuri -n '__dezghuri_in show' -l all -d 'all rows'
complete -c dezghuri -n '__dezghuri_in moves' -l by-box -d 'a list for each box'
complete -c dezghuri -n '__dezghuri_in moves' -l done -x -d 'what is left after so many steps'
complete -c dezghuri -n '__dezghuri_in what-if' -l add -x -d 'a box more: zone and capacity'
complete -c dezghuri -n '__dezghuri_in what-if' -l remove -x -d 'a box less: its id'
complete -c dezghuri -n '__dezghuri_in what-if' -l resize -x -d 'another disk: id=capacity'
complete -c dezghuri -n '__dezghuri_in what-if' -l ceiling -x -d 'another ceiling: id=number'
complete -c dezghuri -n '__dezghuri_in stage' -l ceiling -x -d 'the most copies of a new box'
complete -c dezghuri -n '__dezghuri_in plan check show loss diff moves certify what-if stage undo apply history' -l json -d 'print one JSON object'
complete -c dezghuri -n "__dezghuri_in $commands" -l help -d 'say how it is called'
