#!/usr/bin/env bash
# Orders that are paid and shipped by workers: it starts a server in a directory of its own, deploys the process of
# order.json, makes three orders, and lets workers in this shell do their jobs until every order is done. The worker of
# payments takes at most 500, so the third order comes to an incident, which is mended. A worker of shipments dies with a
# job in its hands, and another one takes over. ZBD in the environment names another server.
# usage: examples/order.sh
set -eu
here=$(cd "$(dirname "$0")" && pwd)
work=$(mktemp -d)
trap 'rm -rf "$work"' EXIT

# The server: it reads requests from one pipe and writes replies to another one. Its clock is moved by hand here, so that
# nobody has to wait for the deadline of a job; with the system's clock nothing else would change.
cd "$work"
coproc server { exec "${ZBD:-$here/../zbd}" serve --clock manual; }
running=$server_PID
exec {requests}>&"${server[1]}" {replies}<&"${server[0]}"
eval "exec ${server[1]}>&- ${server[0]}<&-"

# ask REQUEST: sends it, and waits for its reply
ask() {
    printf '%s\n' "$1" >&"$requests"
    IFS= read -r reply <&"$replies" || { echo 'the server has ended' >&2; exit 1; }
}
# done_by REQUEST: the same, where it has to be done
done_by() {
    ask "$1"
    case $reply in
    '{"ok":'*) ;;
    *) printf 'refused: %s\n  %s\n' "$1" "$reply" >&2; exit 1 ;;
    esac
}
# told NAME: the number, or the text, that the reply tells under a name
told() { sed -nE 's/.*"'"$1"'":"?([^",}]*).*/\1/p' <<<"$reply"; }

# take WORKER TYPE: whether there was a job for it; then job, retries and order are those of the job
take() {
    done_by '{"op":"activate","type":"'"$2"'","worker":"'"$1"'","timeout":60000,"max":1}'
    job=$(told job)
    retries=$(told retries)
    order=$(told order)
    [ -n "$job" ]
}

# pay: takes jobs until there are none, and completes or fails each
pay() {
    local amount
    while take cashier pay; do
        amount=$(told amount)
        if [ "$amount" -le 500 ]; then
            done_by '{"op":"complete","key":'"$job"',"variables":{"receipt":"r-'"$order"'"}}'
            echo "paid     $order, $amount"
        else
            done_by '{"op":"fail","key":'"$job"',"retries":'$((retries - 1))',"message":"more than 500"}'
            echo "failed   $order, $amount, tries left: $((retries - 1))"
            stuck=$job
        fi
    done
}

# ship WORKER: takes jobs until there are none, and completes each
ship() {
    local receipt
    while take "$1" ship; do
        receipt=$(told paid)
        done_by '{"op":"complete","key":'"$job"'}'
        echo "shipped  $order by $1, receipt $receipt"
    done
}

# incident_of JOB: the key of the incident that it came to. No reply tells that, so it is looked up in the log: a byte 2d,
# the key of the incident, a byte 03, the key of the task's cell, and the key of the job
incident_of() {
    local found
    found=$(od -An -v -tx1 zb/1.log | tr -d ' \n' | grep -o "2d[0-9a-f]\{16\}03[0-9a-f]\{16\}$(printf '%016x' "$1")" | tail -n 1)
    echo $((16#${found:2:16}))
}

done_by '{"op":"deploy","model":'"$(tr -d '\n' <"$here/order.json")"'}'
echo "deployed $(told process), version $(told version)"
for row in 'o-1 40' 'o-2 90' 'o-3 700'; do
    done_by '{"op":"create","process":"order","variables":{"order":"'"${row% *}"'","amount":'"${row#* }"'}}'
    echo "created  ${row% *}"
    last=$(told instance)
done

pay
# the third order has no try left: somebody looks at it, corrects the amount, gives the job a try and resolves the incident
incident=$(incident_of "$stuck")
done_by '{"op":"variables","key":'"$last"',"variables":{"amount":70}}'
done_by '{"op":"retries","key":'"$stuck"',"retries":1}'
done_by '{"op":"resolve","key":'"$incident"'}'
echo 'mended   o-3: the amount is 70'
pay

# a worker takes a shipment and is never heard of again: the job goes to nobody else until its deadline
take 'van 1' ship
echo "lost     $order with van 1"
ship 'van 2'
done_by '{"op":"advance","ms":60000}'
done_by '{"op":"tick"}'
echo "due      $(told due)"
ship 'van 2'

# whoever cancels an order now is told that it isn't there any more
ask '{"op":"cancel","key":'"$last"'}'
echo "at last  $(told reason)"
exec {requests}>&-
wait "$running"
