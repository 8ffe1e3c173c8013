# Completions of `hid` for fish: an option in a line, with its values and what it is for.
set -l commands decode fields values record uhid set convert compile struct map page diff check list

# A command, where none stands yet, and behind help.
set -l none "not __fish_seen_subcommand_from $commands help"
complete -c hid -n "$none" -f
complete -c hid -n "__fish_seen_subcommand_from help" -f
complete -c hid -n "$none" -a decode -d "Shows the items of a descriptor in words"
complete -c hid -n "$none" -a fields -d "Shows the reports of a descriptor and their fields"
complete -c hid -n "$none" -a values -d "Shows the values of reports"
complete -c hid -n "$none" -a record -d "Shows each report of a stream in a line, as it comes"
complete -c hid -n "$none" -a uhid -d "Writes a recording as events for Linux's /dev/uhid, without its times"
complete -c hid -n "$none" -a set -d "Writes the bytes of a report"
complete -c hid -n "$none" -a convert -d "Writes a descriptor in another form"
complete -c hid -n "$none" -a compile -d "Writes the descriptor that a text of hid decode says"
complete -c hid -n "$none" -a struct -d "Writes source with a struct, a decoder and an encoder for each report"
complete -c hid -n "$none" -a map -d "Draws the bits of each report"
complete -c hid -n "$none" -a page -d "Writes a page of HTML that shows a descriptor and reports"
complete -c hid -n "$none" -a diff -d "Shows what differs between two descriptors"
complete -c hid -n "$none" -a check -d "Shows what is odd in a descriptor, and what the standard says"
complete -c hid -n "$none" -a list -d "Shows the HID devices of the machine"
complete -c hid -n "$none" -a help -d "Print this message or the help of the given subcommand(s)"
complete -c hid -n "__fish_seen_subcommand_from help" -a "$commands"

# The options of all commands.
complete -c hid -l limit -x -d "The most that a descriptor may list, 131072 where it isn't said"
complete -c hid -l as -x -a "linux standard" -d "Read as Linux does, which is so where nothing is said, or by the standard's letter"
complete -c hid -l quiet -d "Say nothing on standard error but why something is refused"
complete -c hid -l verbose -d "Say also in which form an input is read"
complete -c hid -s h -l help -d "Print help"
complete -c hid -n "$none" -s V -l version -d "Print version"

# Those of several.
complete -c hid -n "__fish_seen_subcommand_from decode fields values record uhid set convert struct map page diff check" -l form -x -a "bytes hex recorder dump source python offsets libinput debugfs lsusb usbmon webhid" -d "What the descriptor's input holds, where it isn't to be guessed"
complete -c hid -n "__fish_seen_subcommand_from decode fields values record uhid set convert struct map page diff check" -s D -l define -x -d "A name that source asks for by #if, or NAME=NUMBER; each by an option"
complete -c hid -n "__fish_seen_subcommand_from decode fields values record uhid set convert struct map page diff check" -l device -x -d "The device that is meant, of an input that has several"
complete -c hid -n "__fish_seen_subcommand_from decode fields values record uhid set convert struct map page diff check list" -l sysfs -x -a "(__fish_complete_directories)" -d "The folder in which Linux tells of devices"
complete -c hid -n "__fish_seen_subcommand_from values record page" -l report-form -x -a "bytes hex recorder dump source python offsets libinput debugfs lsusb usbmon webhid" -d "What the reports' input holds, where it isn't to be guessed"
complete -c hid -n "__fish_seen_subcommand_from decode fields values record diff check list" -l json -d "Write an object of JSON in each line"
complete -c hid -n "__fish_seen_subcommand_from decode fields diff" -l color -x -a "auto always never" -d "Show names in colour"
complete -c hid -n "__fish_seen_subcommand_from fields map" -l width -x -d "The most columns of a line, 40 to 999; those of the terminal where it isn't said"

# Those of one.
complete -c hid -n "__fish_seen_subcommand_from fields" -l all -d "Show each field and each report by itself, also those that are alike"
complete -c hid -n "__fish_seen_subcommand_from fields" -l linux -d "Show the event codes that Linux's hid-generic gives each field, without quirks"
complete -c hid -n "__fish_seen_subcommand_from values" -l direction -x -a "input output feature" -d "Which way the reports go"
complete -c hid -n "__fish_seen_subcommand_from values" -l down -d "Show only the keys and buttons that are down, a name in each line"
complete -c hid -n "__fish_seen_subcommand_from values" -l linux -d "Show the input events that Linux's hid-generic sends for each report, without quirks"
complete -c hid -n "__fish_seen_subcommand_from values" -l times -d "Show each report's number and its time in seconds"
complete -c hid -n "__fish_seen_subcommand_from record" -l changes -d "Leave out what is as it was in the report before"
complete -c hid -n "__fish_seen_subcommand_from record" -l raw -d "Write hid-recorder's lines"
complete -c hid -n "__fish_seen_subcommand_from record" -l linux -d "Show the input events that Linux's hid-generic sends for each report, without quirks"
complete -c hid -n "__fish_seen_subcommand_from record" -l times -d "Show each report's number and its time in seconds"
complete -c hid -n "__fish_seen_subcommand_from set" -l direction -x -a "input output feature" -d "Which way the reports go"
complete -c hid -n "__fish_seen_subcommand_from set" -l to -x -a "hex c rust bytes recording python kernel" -d "What the bytes are written as"
complete -c hid -n "__fish_seen_subcommand_from set" -l press -x -d "Press keys of a keyboard, too, with + between them, as Ctrl+A"
complete -c hid -n "__fish_seen_subcommand_from set" -l zero -d "Set all bits to 0 that no name sets, and not to what stands for no value"
complete -c hid -n "__fish_seen_subcommand_from set" -l names -d "Show the names that it takes, one in each line, and write no report"
complete -c hid -n "__fish_seen_subcommand_from set" -l linux -d "Write what Linux does where a program sets lamps, as LED_CAPSL=1; ID is -"
complete -c hid -n "__fish_seen_subcommand_from convert" -l to -x -a "hex c rust bytes recording python kernel zephyr tinyusb lufa hid-bpf libinput webhid" -d "What the bytes are written as"
complete -c hid -n "__fish_seen_subcommand_from compile" -l to -x -a "hex c rust bytes recording python kernel zephyr tinyusb lufa hid-bpf libinput webhid" -d "What the bytes are written as"
complete -c hid -n "__fish_seen_subcommand_from struct" -l to -x -a "c rust python javascript" -d "The language of the source"
complete -c hid -n "__fish_seen_subcommand_from map" -l svg -d "Write the picture as SVG"
complete -c hid -n "__fish_seen_subcommand_from map" -l all -d "Draw all rows, past the first 4,096"
complete -c hid -n "__fish_seen_subcommand_from page" -l direction -x -a "input output feature" -d "Which way the reports go"
complete -c hid -n "__fish_seen_subcommand_from page" -l all -d "Leave nothing out: all items past 4,096, fields past 2,000 and reports past 4,000"
complete -c hid -n "__fish_seen_subcommand_from diff" -l items -d "Show the items that differ, in the bytes as they stand"
complete -c hid -n "__fish_seen_subcommand_from check" -l for -x -a "linux windows" -d "Show also what this host refuses or may read otherwise, as far as it is known"
complete -c hid -n "__fish_seen_subcommand_from check" -l fail-on -x -a "error warning note never" -d "The status is 1 where a finding is so bad, or worse"
complete -c hid -n "__fish_seen_subcommand_from check" -l explain -x -d "Show what a rule means and what to write, by its number or name; all: a line of each"

# The names that `hid set` takes, where its file and its report's id stand before the word.
function __hid_names
    set -l tokens (commandline -opc)
    set -l words
    set -l options
    set -l place 2
    while test $place -le (count $tokens)
        switch $tokens[$place]
            case --form -D --define --device --limit --as --direction --sysfs
                set -a options $tokens[$place] $tokens[(math $place + 1)]
                set place (math $place + 1)
            case --to --press
                set place (math $place + 1)
            case -
                set -a words -
            case '-*'
            case '*'
                set -a words $tokens[$place]
        end
        set place (math $place + 1)
    end
    if test (count $words) -ge 3; and test $words[1] = set
        $tokens[1] set --names $options -- $words[2] $words[3] </dev/null 2>/dev/null
    end
end
complete -c hid -n "__fish_seen_subcommand_from set" -a "(__hid_names)"
