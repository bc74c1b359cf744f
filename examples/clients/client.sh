#!/usr/bin/env bash
# A railway's session with taf_hub, one record at a time: client.sh PORT RAILWAY [SECONDS] <RECORDS
# Says hello, sends the records of its standard input, and shows the answers. Then it fetches and acknowledges the
# items of its outbox until there is none. Where the connection breaks, and where the hub is full, it connects again, for
# so many seconds (0), says hello, and sends the record again that has no answer. It needs bash and sleep.
set -euo pipefail
port=$1 railway=$2 seconds=${3:-0}
# A record that is sent over a broken connection is an error, and does not end the client.
trap '' PIPE

# Sends a record, and takes its answer. Fails where the connection is broken.
exchange() {
    printf '%s\n' "$1" >&3 && IFS= read -r reply <&3
}

# Connects, and says hello. Fails where the hub is full: then it has said so, and has ended the connection.
connect() {
    reply=
    exec 3<>"/dev/tcp/127.0.0.1/$port" && exchange "{\"kind\":\"hello\",\"from\":\"$railway\"}" && ! is_full
} 2>/dev/null

is_full() { [ "$reply" = '{"fault":"full"}' ]; }

# Connects again.
connect_again() {
    local end=$((SECONDS + seconds))
    while [ "$SECONDS" -lt "$end" ]; do
        if connect; then return; fi
        sleep 0.05
    done
    echo "client: the hub has ended the session" >&2
    exit 1
}

# Sends a record until it has its answer, and shows that.
send() {
    until exchange "$1" 2>/dev/null; do connect_again; done
    printf '%s\n' "$reply"
}

# The next record. While there is none, a connection that has something to read is broken: all answers were taken.
next_record() {
    local part status
    record=
    until IFS= read -r -t 0.1 part; do
        status=$?
        record+=$part
        # A status above 128 says that the time is over, another one that the input has ended.
        if [ "$status" -le 128 ]; then
            [ -n "$record" ]
            return
        fi
        if read -r -t 0 -u 3; then connect_again; fi
    done
    record+=$part
}

connect || { is_full && connect_again; } || { echo "client: the hub has ended the session" >&2; exit 1; }
printf '%s\n' "$reply"
while next_record; do
    # A blank line is no record, and has no answer.
    if [[ $record =~ [^[:space:]] ]]; then send "$record"; fi
done

while send "{\"kind\":\"fetch\",\"from\":\"$railway\",\"limit\":50}" && [ "$reply" != '{"items":[],"reply":"items"}' ]; do
    numbers=${reply//\"item\":/$'\n'}
    last=${numbers##*$'\n'}
    last=${last%%[!0-9]*}
    if [ -z "$last" ]; then echo "client: no items: $reply" >&2; exit 1; fi
    send "{\"kind\":\"ack\",\"from\":\"$railway\",\"item\":$last}"
done
