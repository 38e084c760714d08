#!/bin/sh
# The command tlslog of the packages. It runs ../libexec/tlslog/tlslog, or the program at
# TLSLOG_PROGRAM.
#
# Ctrl-C reaches every program of a pipeline. If the capture comes through a pipe, tlslog ignores
# Ctrl-C: the program that writes ends, so the pipe does, and tlslog prints the open connections.
# If standard input is a terminal, a message says that a capture is expected there.

# Whether standard input is read: no capture is named, or - is. After an unknown option nothing is
# read, and the program reports it.
reads_input() {
    has_capture=
    while [ $# -gt 0 ]; do
        case "$1" in
            --checksums | --ciphers | --fields | --format | --memory | --part) [ $# -gt 1 ] && shift ;;
            --by-network | --certificates | --csv-raw | --join | --merge-networks | --messages | --numbers | --*=*) ;;
            --)
                shift
                for word; do
                    [ "$word" != - ] || return 0
                    has_capture=1
                done
                break
                ;;
            -) return 0 ;;
            -*) return 1 ;;
            *) has_capture=1 ;;
        esac
        shift
    done
    [ -z "$has_capture" ]
}

program="${TLSLOG_PROGRAM:-$(dirname "$(readlink -f "$0")")/../libexec/tlslog/tlslog}"
if [ -p /dev/stdin ] && reads_input "$@"; then
    trap '' INT
elif [ -t 0 ] && reads_input "$@"; then
    echo 'tlslog: waits for a capture on standard input; name a file, or: tcpdump -U -w - | tlslog' >&2
fi
exec "$program" "$@"
