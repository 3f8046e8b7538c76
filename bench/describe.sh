# What `instructions` and `seconds` share; they read it, and it isn't run by itself.

# Makes the description $1 of the program $2, with the further fields $3.
describe() {
    printf '{"version": 1, "init": "%s", "report": "report", "archive": "archive"%s}\n' "$2" "${3:-}" >"$1"
}

# The fields of a run of the program and the arguments $1 .., of which the first is the program's own name: at most 10,000,000 turns,
# and the file `data` for those that read or write it.
fields_of() {
    local words
    words=$(printf '"%s", ' "$@")
    printf ', "args": [%s], "max_turns": 10000000' "${words%, }"
    case ${2:-} in read | write) printf ', "files": [{"path": "data", "from": "data"}]' ;; esac
}

# Makes the file `data` of 16 MiB.
make_data() {
    truncate -s 16777216 data
}

# Whether process 1 of the last run exited with 0, by the report; else says so.
went_well() {
    grep -qx 'exit 1 0' report || { echo "the program of run.json failed: $(paste -sd, report)" >&2 && return 1; }
}
