# Completion of syc and syc-run in fish: it belongs into share/fish/vendor_completions.d, or ~/.config/fish/completions, as
# syc.fish, and again as syc-run.fish.
#
# What stands in files is compared and offered, and never expanded.

# The words before the cursor: the command (of syc-run that name), then those that are no options.
function __syc_places
    set -l words (commandline -opc)
    set -l name (string replace -r '.*/' '' -- $words[1])
    test "$name" = syc-run; and echo syc-run
    set -l skips ''
    set -l ended ''
    for it in $words[2..-1]
        if test -n "$skips"
            set skips ''
        else if test -z "$ended"; and string match -q -- '-*' $it
            switch $it
                case --
                    set ended 1
                case --class --rename --left --unread --drain --metrics --metrics-every
                    set skips 1
            end
        else
            string replace -a \n ' ' -- $it
        end
    end
end

# __syc_is COMMAND..: whether the command is one of these.
function __syc_is
    set -l places (__syc_places)
    set -q places[1]; and contains -- $places[1] $argv
end

# __syc_at COUNT COMMAND..: whether it is one of these, and so many words came after it.
function __syc_at
    set -l places (__syc_places)
    set -q places[1]; and test (count $places) -eq (math $argv[1] + 1); and contains -- $places[1] $argv[2..-1]
end

function __syc_wants_command
    set -l places (__syc_places)
    not set -q places[1]
end

# __syc_past COUNT COMMAND..: whether it is one of these, and so many words or more came after it.
function __syc_past
    set -l places (__syc_places)
    set -q places[1]; and test (count $places) -gt $argv[1]; and contains -- $places[1] $argv[2..-1]
end

# The names of the relays of the site file, of at most 1 MiB: a regular file, where nothing waits.
function __syc_relays
    set -l places (__syc_places)
    set -l site (string replace -r -- '^~/' "$HOME/" "$places[2]")
    if test -f "$site"; and test -r "$site"
        command head -c 1048576 <"$site" 2>/dev/null |
            LC_ALL=C command sed -nE 's/^[[:blank:]]*relay[[:blank:]]+([A-Za-z0-9._-]{1,64})[[:blank:]]+[^[:space:]].*/\1/p' |
            command head -n 64
    end
end

function __syc_classes
    for facility in kern user mail daemon auth syslog lpr news uucp cron authpriv ftp (command seq 12 15) local(command seq 0 7)
        string join \n $facility.{emerg,alert,crit,err,warning,notice,info,debug}
    end
end

complete -c syc -n __syc_wants_command -f
complete -c syc -n __syc_wants_command -s h -l help -d 'Print help'
complete -c syc -n __syc_wants_command -s C -rF -d 'Look for all files in this folder'
complete -c syc -n __syc_wants_command -s V -l version -d 'Print version'
for condition in __syc_wants_command '__syc_at 0 help'
    complete -c syc -n $condition -f -a pass -d 'Write one line a message of frames'
    complete -c syc -n $condition -f -a check -d 'Say whether a site keeps its protected messages'
    complete -c syc -n $condition -f -a certify -d 'Print a certificate of a site'
    complete -c syc -n $condition -f -a verify -d 'Say whether a certificate of a site is right'
    complete -c syc -n $condition -f -a replay -d 'Make the events of a file at a site'
    complete -c syc -n $condition -f -a diff -d 'Say whether a site is worse than before'
    complete -c syc -n $condition -f -a survey -d 'Say where rsyslogd may lose messages'
    complete -c syc -n $condition -f -a convert -d 'Print a configuration of rsyslogd for a relay'
    complete -c syc -n $condition -f -a run -d 'Check a site, and run one of its relays'
    complete -c syc -n $condition -f -a unread -d 'Say what a file of run --unread has'
    complete -c syc -n $condition -f -a lines -d 'Print the messages of an archive with escapes'
    complete -c syc -n $condition -f -a graph -d 'Print a site as a graph, for Graphviz'
    complete -c syc -n $condition -f -a explain -d 'Say what a number or a name means'
    complete -c syc -n $condition -f -a help -d 'Print help of a command'
end

for command in syc syc-run
    complete -c $command -n '__syc_is pass check certify verify replay diff survey convert run unread lines graph explain syc-run' -s h -l help -d 'Print help'
    complete -c $command -n '__syc_is check certify verify replay diff run syc-run' -l explain -d 'Explain what is found, or the fault'
    complete -c $command -n '__syc_is check certify verify replay diff survey convert graph run syc-run' -l any-file -d 'Read FIFOs and devices too'
    complete -c $command -n '__syc_is check run syc-run' -l strict -d 'Refuse a site that has warnings too'
    complete -c $command -n '__syc_is run syc-run' -l unchecked -d 'Run it without a check'
    complete -c $command -n '__syc_is run syc-run' -l left -rF -d 'Write what it still holds at its end'
    complete -c $command -n '__syc_is run syc-run' -l unread -rF -d 'Write each frame without a message'
    complete -c $command -n '__syc_is run syc-run' -l drain -x -d 'Wait so many seconds until it is empty'
    complete -c $command -n '__syc_is run syc-run' -l metrics -rF -d 'Write the totals again and again'
    complete -c $command -n '__syc_is run syc-run' -l metrics-every -x -d 'Write them after so many seconds'
    complete -c $command -n '__syc_at 1 run syc-run' -f -a '(__syc_relays)' -d Relay
    complete -c $command -n '__syc_past 2 run syc-run' -f
end
complete -c syc-run -l resend -d 'Send what earlier stops left'
complete -c syc -n '__syc_is check' -l all -d 'List every finding and every fault'
complete -c syc -n '__syc_is check certify verify replay diff survey' -l json -d 'Print one JSON document'
complete -c syc -n '__syc_is diff' -l rename -x -d 'A relay that has another name'
complete -c syc -n '__syc_is survey convert' -l protect -x -d 'The classes that are asked for'
complete -c syc -n '__syc_is survey convert' -l root -rF -d 'Look for what comes behind it below this folder'
complete -c syc -n '__syc_is survey' -l sarif -d 'Print a document of SARIF 2.1.0'
complete -c syc -n '__syc_is survey' -l strict -d 'Refuse what is taken for granted too'
complete -c syc -n '__syc_is graph' -l full -d 'Draw each relay in full'
complete -c syc -n '__syc_is graph' -l class -x -a '(__syc_classes)' -d 'Draw what this class may reach'
complete -c syc -n '__syc_is unread' -l repair -d 'Write what a repair makes messages'
complete -c syc -n '__syc_at 0 explain' -f -a kind -d 'A kind of finding'
complete -c syc -n '__syc_past 0 pass explain' -f
complete -c syc -n '__syc_past 1 check certify convert graph unread lines help' -f
complete -c syc -n '__syc_past 2 verify replay diff' -f
