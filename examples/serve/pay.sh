#!/bin/sh
# Pays, and asks again with the same key until there is an answer. usage: pay.sh URL TOKEN_FILE KEY AMOUNT
url=$1 token_file=$2 key=$3 amount=$4
head=$(mktemp) && trap 'rm -f "$head"' EXIT || exit 3
while :; do
    # The token comes on standard input, because other users can read a command line.
    body=$(printf 'Authorization: Bearer %s\n' "$(cat "$token_file")" |
        curl --silent --max-time 300 --dump-header "$head" --header @- \
            --header "Idempotency-Key: $key" --data "{\"amount\":$amount}" "$url/payments") || : > "$head"
    status=$(awk 'NR == 1 { print $2 }' "$head")
    case $status in
    200) echo "paid: $body"; exit 0 ;;
    402) echo "not paid: $body"; exit 1 ;;
    424) echo "unclear, look at the terminal: $body"; exit 2 ;;
    esac
    wait=$(awk 'tolower($1) == "retry-after:" { print $2 + 0 }' "$head")
    case $status in
    4*) [ -n "$wait" ] || { echo "refused: $body"; exit 3; } ;;
    esac
    sleep "${wait:-1}"
done
