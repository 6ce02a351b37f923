# What the tests of the built programs share: `. tests/rows.sh`. Each sets `room`, a new folder in which the commands
# run, and counts rows in `passed` and `failed`; `build` names the program in what is printed of a failed row.
room=$(mktemp -d) || exit 1
trap 'rm -rf "$room"' EXIT
passed=0
failed=0

# count_row LABEL STATUS WANTED_STATUS RIGHT: counts a row, and prints the start of its output if it is wrong
count_row() {
    if [ "$2" = "$3" ] && [ "$4" = yes ]; then
        passed=$((passed + 1))
    else
        failed=$((failed + 1))
        echo "FAILED: $1: $build: status $2, expected $3; standard output and standard error begin"
        head -c 200 "$room/output" "$room/faults"
    fi
}

# row LABEL STATUS OUTPUT FAULTS COMMAND: the status, standard output and standard error of the command
row() {
    local status right=no
    printf %b "$3" >"$room/wanted"
    printf %b "$4" >"$room/wanted_faults"
    (cd "$room" && eval "$5") </dev/null >"$room/output" 2>"$room/faults"
    status=$?
    if cmp -s "$room/output" "$room/wanted" && cmp -s "$room/faults" "$room/wanted_faults"; then
        right=yes
    fi
    count_row "$1" $status "$2" $right
}

# holds LABEL STATUS TEXT COMMAND: the status of the command, and one line of all that it prints
holds() {
    local status right=no
    (cd "$room" && eval "$4") </dev/null >"$room/output" 2>"$room/faults"
    status=$?
    if grep -qxF -- "$3" "$room/output" "$room/faults"; then
        right=yes
    fi
    count_row "$1" $status "$2" $right
}

# end_rows: prints the counts, and ends with 0 if no row failed
end_rows() {
    echo "$passed passed, $failed failed"
    [ $failed = 0 ]
    exit
}
