# Completion of the arguments of a429 for bash. To use it:  source docs/a429.bash
# Prints each command with its line, as help has it; tools/docs writes the lines.
_a429_lines() {
    cat <<'END_OF_LINES'
import    Print an equipment table, made from a spreadsheet's rows
plan      Plan a station on the fewest buses for its periods, with their bound
check     Check whether a plan's text shows the fewest buses for a station
icd       Print the data of each output for an interface control document
draw      Draw the slot tables of a plan as an image (SVG)
slots     Print the slot tables of a plan: each cell with its output
buses     Print which words each input bus and each output bus carries
load      Print the load of each bus, and how many more outputs it can take
margin    Show what would save a bus in each group
lint      Report likely mistakes in a table, such as sources that are not sent
diff      Print what changes when one table replaces another
replay    Play the events of a script on a station, and print the answers
simulate  Simulate a station on a log of received words with times
live      Run a station on threads, and print how many words and cells passed
survey    Print which words are on recorded lines, and how often each comes
judge     Judge whether what a box sent is right, by logs of its words
word      Print the fields of a 32-bit word, and its data as BNR and as BCD
encode    Print the 32-bit word that has these fields
lines     Decode a recorded line: print its words, its faults, and the rest
END_OF_LINES
}

# Prints the names of the groups of a table.
_a429_groups() {
    awk '/^ *\[/ { in_group = /^ *\[\[ *group *\]\]/ }
        in_group && /^ *name *=/ { split($0, parts, /["\047]/); print parts[2] }' "$1" 2>/dev/null
}

_a429() {
    local word=${COMP_WORDS[COMP_CWORD]} command=${COMP_WORDS[1]} options=--help
    local commands="$(_a429_lines | sed 's/ .*//') help"
    if [ "$COMP_CWORD" -eq 1 ]; then
        mapfile -t COMPREPLY < <(compgen -W "$commands --help --version" -- "$word")
        # A list of several commands (readline's `?`) has the line of each.
        if [ "${COMP_TYPE:-9}" -eq 63 ] && [ "${#COMPREPLY[@]}" -gt 1 ]; then
            mapfile -t COMPREPLY < <(for command in "${COMPREPLY[@]}"; do
                _a429_lines | grep "^$command " || echo "$command"
            done)
        fi
        return
    fi
    case $command in
        help) COMPREPLY=($(compgen -W "$commands" -- "$word")); return ;;
        word) COMPREPLY=($(compgen -W "--csv --json $options" -- "$word")); return ;;
        # options
        import) options="--map --names --fill --keep-columns --quiet $options" ;;
        plan) options="--keep --csv --json $options" ;;
        check) options="--csv --json $options" ;;
        icd) options="--plan --csv --text --json --stamp $options" ;;
        draw) options="--plan --group --slots --width --html $options" ;;
        slots) options="--plan --group --all --c --board --csv --json --stamp $options" ;;
        buses) options="--plan --csv --json --stamp $options" ;;
        load) options="--plan --limit --csv --json --stamp $options" ;;
        margin) options="--plan --csv --json --stamp $options" ;;
        lint) options="--csv --json --stamp $options" ;;
        diff) options="--plan --other-plan --all --csv --json --stamp $options" ;;
        replay) options="--plan --quiet --only --csv $options" ;;
        simulate) options="--plan --time --tick --dates --from --map --channel --ignore --reversed --until --sent --summary --quiet --csv --json $options" ;;
        live) options="--plan --quiet $options" ;;
        survey) options="--table --time --tick --dates --from --until --map --channel --ignore --reversed --rate --rows --slack --quiet --csv --json $options" ;;
        judge) options="--plan --in --tolerance --events --time --tick --dates --from --until --align --shift --drift --map --channel --ignore --reversed --quiet --csv --json $options" ;;
        word) options="--csv --json $options" ;;
        encode) options="--sdi --ssm --data --bnr --bits --bcd --csv --json $options" ;;
        lines) options="--csv --json $options" ;;
        # end of options
    esac
    case ${COMP_WORDS[COMP_CWORD - 1]} in
        --width) COMPREPLY=($(compgen -W "64 128 256" -- "$word")); return ;;
        --time) COMPREPLY=($(compgen -W "us ms s" -- "$word")); return ;;
        --from) COMPREPLY=($(compgen -W "first" -- "$word")); return ;;
        --sdi | --ssm) COMPREPLY=($(compgen -W "0 1 2 3" -- "$word")); return ;;
        --group | --only) COMPREPLY=($(compgen -W "$(_a429_groups "${COMP_WORDS[2]}")" -- "$word")); return ;;
        # values
        --map | --keep-columns | --keep | --plan | --group | --slots | --width | --limit | --other-plan | --only | --time | --tick | --dates | --from | --channel | --ignore | --reversed | --until | --table | --rate | --slack | --tolerance | --shift | --drift | --sdi | --ssm | --data | --bnr | --bits | --bcd) COMPREPLY=(); return ;;
        # end of values
    esac
    case $word in
        -*) COMPREPLY=($(compgen -W "$options" -- "$word")) ;;
        *) [ "$command" = encode ] || COMPREPLY=($(compgen -f -- "$word")) ;;
    esac
}
complete -o filenames -F _a429 a429 ./a429
