#!/bin/sh
# Starts dlt_daemon with these words, and ends it in order at SIGTERM, SIGINT or SIGHUP: its standard input is a pipe, and with `--until-eof` it ends when
# that ends. Then it sends its clients what waits for them, hears programs to their ends, and its trace is whole. Its status is the daemon's.
#
#     dlt_daemon.sh [--conf NAME] [--port N] [--users N] [--status SECONDS] [--sync SECONDS]
#
# DLT_DAEMON is the program, where it isn't found by its name.
set -u
pipe=$(mktemp -u "${TMPDIR:-/tmp}/dlt_daemon.XXXXXX") || exit 1
mkfifo -m 600 "$pipe" || exit 1
# Who has the pipe open both ways waits for nobody; so its ends are opened here, and its name can go.
exec 3<>"$pipe"
exec 4>"$pipe" 5<"$pipe"
rm -f "$pipe"
"${DLT_DAEMON:-dlt_daemon}" --until-eof "$@" <&5 3<&- 4>&- 5<&- &
daemon=$!
exec 3<&- 5<&-
trap 'exec 4>&-' TERM INT HUP
# A signal that comes meanwhile ends the waiting, and not the daemon: so it is waited for once more.
while :; do
    wait "$daemon"
    status=$?
    kill -0 "$daemon" 2>/dev/null || break
done
exit "$status"
