# Records of documents 01 and 02 as bytes, for the scripts beside this file.
# To be read in with '.'; each function writes its record to standard output.

# numbers 0 to 255, one byte each
bytes() {
    # shellcheck disable=SC2059  # the inner printf makes the octal escapes
    [ $# -eq 0 ] || printf "$(printf '\\%03o' "$@")"
}

# the four bytes of a number, lowest first, as numbers for bytes
four() {
    echo "$(($1 & 255)) $(($1 >> 8 & 255)) $(($1 >> 16 & 255)) $(($1 >> 24 & 255))"
}

# setup N P K VALUE...
setup() {
    bytes 83 85 "$1" "$2" "$3" 0
    shift 3
    for value in "$@"; do
        # shellcheck disable=SC2046
        bytes $(four "$value")
    done
}

# entry TASK KIND CELL VALUE
entry() {
    # shellcheck disable=SC2046
    bytes 69 78 "$1" "$2" "$3" 0 $(four "$4")
}

# go TASK [TIMES]
go() {
    times=${2:-1}
    while [ "$times" -gt 0 ]; do
        entry "$1" 0 0 0
        times=$((times - 1))
    done
}

# load TASK CELL, store TASK CELL VALUE, release TASK, validate TASK: the start
# of a call
load() { entry "$1" 1 "$2" 0; }
store() { entry "$1" 2 "$2" "$3"; }
release() { entry "$1" 3 0 0; }
validate() { entry "$1" 4 0 0; }

# The inputs that are also kept in examples/: document 01's cases, one for the
# validate of document 02's item 1, one for S3 as its item 2 has it and one for
# the stores without a link of its item 5.
# shellcheck disable=SC2034
examples="case03 case09 case10 case11 case12 case_validate case_left case_restart"

# one task loads 7 and stores 9
case03() {
    setup 1 1 3 7
    load 0 0; go 0 4
    store 0 0 9; go 0 3
}

# task 0 stops after L1; task 1 stores twice, and node 0 is in the cell again
case09() {
    setup 1 2 5 7
    load 0 0; go 0
    load 1 0; go 1 4
    store 1 0 9; go 1 3
    load 1 0; go 1 4
    store 1 0 11; go 1 3
    go 0 3
}

# both linked; task 1 stores and looks for a free node, task 0's store is lost
case10() {
    setup 1 2 5 7
    load 0 0; go 0 4
    load 1 0; go 1 4
    store 1 0 9; go 1 7
    store 0 0 8; go 0 3
}

# task 0 stops after L1; task 1 stores once, so task 0's check turns it back
case11() {
    setup 1 2 5 7
    load 0 0; go 0
    load 1 0; go 1 4
    store 1 0 9; go 1 3
    go 0 7
}

# a load and its release
case12() {
    setup 1 2 5 7
    load 0 0; go 0 4
    release 0; go 0
}

# task 0 loads and finds its link good; task 1 loads and stores; task 0 finds
# its link gone, and its store is lost
case_validate() {
    setup 1 2 5 7
    load 0 0; go 0 4
    validate 0; go 0
    load 1 0; go 1 4
    store 1 0 9; go 1 7
    validate 0; go 0
    store 0 0 8; go 0 3
}

# both linked; task 1 stores up to S3, which leaves 2; task 0 releases, so 1 is
# left; task 1 goes on to S5 all the same and looks for a free node
case_left() {
    setup 1 2 5 7
    load 0 0; go 0 4
    load 1 0; go 1 4
    store 1 0 9; go 1 3
    release 0; go 0
    go 1 4
}

# after a restart no task has a link: task 0 stores to both cells in vain, then
# loads and stores; task 1 loads what that store left
case_restart() {
    setup 2 2 6 7 8
    store 0 0 9
    store 0 1 9
    load 0 0; go 0 4
    store 0 0 9; go 0 3
    load 1 0; go 1 4
}
