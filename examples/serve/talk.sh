#!/bin/sh
# A process of a consortium in the shell: echo and read over two pipes.
#
#     talk.sh DIR NAME LABEL <FIGURE
#
# Reads a number, gives it as data of that label to a sum of all processes, and prints what comes of
# it. The number is no argument, since all users of a machine see each other's arguments.
set -eu
dir=$1 name=$2 label=$3
read -r number

# In this order, which is the server's: each of the two waits for the other side. Both stay open to
# the end: a process is gone when its calls are closed.
exec 4<"$dir/$name.replies" 3>"$dir/$name.calls"

ask() {
    echo "$1" >&3
    read -r word rest <&4
}

ask "post 0 allreduce sum int64 1 as $label $number"
case $word in
    posted | barred) request=${rest%% *} ;;
    *)
        echo "$name: $word $rest" >&2
        exit 1
        ;;
esac
ask "wait $request"
echo "$name: $word $rest"
ask "leave"
