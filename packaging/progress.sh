#!/bin/sh
# progress.sh LOG COMMAND..: runs a command with all of its output in LOG, and shows the lines that begin with `rt:`, rt's
# progress, on standard error as they come. Where the command fails the whole log is shown. Exits as the command does.
set -u

log=$1
shift

# Copies standard input to the log, and its lines of progress to standard error.
show() {
    while IFS= read -r line || [ -n "$line" ]; do
        printf '%s\n' "$line"
        case $line in
        rt:*) printf '%s\n' "$line" >&2 ;;
        esac
    done >"$log"
}

# A pipe's own status is that of its last command, so the command's goes round it, through descriptor 3.
status=$({ { "$@" 2>&1 3>&-; echo "$?" >&3; } | show >&2; } 3>&1)
if [ "${status:-1}" -ne 0 ]; then
    cat "$log" >&2
fi
exit "${status:-1}"
