#!/bin/sh
# Puts a message through a host's door by curl, once, however often it is started again: put.sh URL STREAM FILE TEXT
# FILE is of this message alone. It keeps the call, before it is made, and FILE.done what it was answered: where they are there, that call is made again, or
# its answer is told. Where the host was started again meanwhile, it is asked what became of the message of that call: one that was not got and never will be is
# put anew. Remove both files, and FILE.lock, once it is noted elsewhere that the message was put and no put.sh of this FILE is at work; not before, as one that
# is started or goes on behind that would put it twice.
# A stream has to have one writer, which ends one FILE, with status 0, before it begins the next. Behind a start of the host the answer is about whatever was put
# under the number of the call: of another writer, or of a later FILE, it would be told as if this message had been put.
# What the door answers is not trusted: what is no life and no number goes into no sum and into no address.
set -euC
LC_ALL=C
export LC_ALL

url=$1 stream=$2 file=$3 text=$4

# A member of an object of JSON that has no objects in it.
member() {
    sed 's/.*"'"$1"'":"\{0,1\}\([^",}]*\).*/\1/'
}

# Ends where the door's answer is none.
strange() {
    echo "put.sh: what came is no answer of a sender's door: nothing was put" >&2
    exit 1
}

# One at a time has FILE: who waited here may find what the one before it was told. A call that is on its way when its script is killed has it until it ends.
exec 9>>"$file.lock"
flock 9

[ ! -e "$file.done" ] || exec cat "$file.done"
# What a kill left of these, or somebody else put there, is not written through.
rm -f "$file.new" "$file.answer"
if [ ! -e "$file" ]; then
    state=$(curl -sSf --retry 9 --retry-connrefused "$url/v1/streams/$stream")
    life=$(printf %s "$state" | member life)
    last=$(printf %s "$state" | member put)
    case $life in '' | *[!A-Za-z0-9_-]*) strange ;; esac
    case $last in '' | *[!0-9]* | 0?*) strange ;; esac
    number=$((last + 1))
    by=$(od -An -N12 -tx1 /dev/urandom | tr -d ' \n')
    printf '%s\n' "/v1/streams/$stream/messages/$number?life=$life&by=$by" >"$file.new"
    sync "$file.new"
    mv "$file.new" "$file"
fi
# The call is on the disk, under its name, before it leaves: else a loss of power might take it, and the next start would put the message twice.
sync "$(dirname -- "$file")"
target=$(cat "$file")
until status=$(printf %s "$text" | curl -sS -m 60 -o "$file.answer" -w '%{http_code}' -X PUT --data-binary @- "$url$target") && [ "$status" != 503 ] && [ "$status" != 408 ]; do
    sleep 1
done
if [ "$status" = 410 ]; then
    curl -sS -o "$file.answer" "$url${target%&by=*}"
    case $(member outcome <"$file.answer") in
    never | gone)
        rm "$file.answer" "$file"
        # A door that answers each call like that is not asked without a pause.
        sleep 1
        exec "$0" "$@"
        ;;
    got | open | unknown | settled) status=200 ;;
    esac
fi
echo >>"$file.answer"
case $status in
200 | 201)
    sync "$file.answer"
    mv "$file.answer" "$file.done"
    cat "$file.done"
    ;;
*)
    # The door refuses, as `token`; or another program puts on the stream, or the host does not know the life of the call: then its journal tells whether this was put.
    cat "$file.answer"
    rm "$file.answer"
    echo "put.sh: $status: mend that, and start this again with the same file; remove $file only where amo outcomes JOURNAL tells that this was not put" >&2
    exit 1
    ;;
esac
