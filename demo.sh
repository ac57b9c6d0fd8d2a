#!/bin/sh
# The main job of Lot stock, from nothing: builds lotd, reads a label, makes books, receives goods by
# their label, takes an order, shows what is reserved for it, the item's stock, the pick list and the shortages,
# picks, ships, recalls, prints the recall notice, takes in a goods-in file, takes an urgent order, and does all acts again.
# Then the server is ended by kill -9, its books are deleted, and the file of the acts makes them again.
#
# sh demo.sh          builds lotd before any proof (try.sh), or takes the proved program where this very tree has been proved
# sh demo.sh proved   proves lotd first, by build.sh
# sh demo.sh page     then has a house to look at in the browser, until Ctrl-C (demo/page.py)
#
# LOTD names another program, PORT another port. Needs the Rattle kit, python3 and curl.
# Exit status 0 only if every answer was the expected one.
set -eu
cd "$(dirname "$0")"

port=${PORT:-18080}
proved='' page=''
for word in "$@"; do
    case $word in
    proved) proved=yes ;;
    page) page=yes ;;
    *)
        echo "demo: there is no '$word': sh demo.sh [proved] [page]" >&2
        exit 2
        ;;
    esac
done

for it in python3 curl $([ -n "${LOTD:-}" ] || echo rt); do
    if ! command -v "$it" >/dev/null; then
        echo "demo: there is no $it (rt is the Rattle kit's, in its folder bin)" >&2
        exit 1
    fi
done

if ! python3 -c "import socket; socket.create_server(('127.0.0.1', $port)).close()" 2>/dev/null; then
    echo "demo: port $port is taken; PORT names another: PORT=18090 sh demo.sh" >&2
    exit 1
fi

# is_proved: build.sh has proved and built this very tree; then `backend` is the word that it was given
is_proved() {
    for backend in '' llvm; do
        if sh build.sh made $backend; then return 0; fi
    done
    backend=
    return 1
}

if [ -n "${LOTD:-}" ]; then
    lotd=$LOTD
    how="LOTD names the program"
elif is_proved || [ -n "$proved" ]; then
    echo "> sh build.sh: prove what lotd stands on, and build lotd, where that is not done"
    sh build.sh $backend
    lotd=$PWD/crates/lotd/out/lotd
    how="lotd is proved"
else
    echo "This demo builds lotd before any proof, with run-time checks. 'sh build.sh' proves everything and builds the program that is installed."
    echo "> sh try.sh, two to six minutes the first time"
    sh try.sh
    lotd=$PWD/crates/lotd/out/lotd.tried
    how="lotd was built before any proof; sh build.sh proves everything"
fi
if [ -n "$page" ]; then exec python3 demo/page.py "$lotd" "$port"; fi

room=$(mktemp -d)
db=$room/stock.db
acts=$room/stock.acts
server=

end() {
    if [ -n "$server" ]; then kill "$server" 2>/dev/null || true; fi
    rm -rf "$room"
}
trap end EXIT
trap 'exit 1' HUP INT TERM

# expect WHAT EXPECTED GOT
expect() {
    echo "$3"
    if [ "$2" != "$3" ]; then
        echo "demo: $1: expected: $2" >&2
        exit 1
    fi
}

# is_closed WHAT: the file of the books was closed, so its log has not one page left that is not in the file
is_closed() {
    if [ -e "$db-wal" ] && [ "$(wc -c <"$db-wal")" -ge 1024 ]; then
        echo "demo: $1: the log beside the file of the books still has pages" >&2
        exit 1
    fi
}

# post PATH BODY STATUS ANSWER
post() {
    echo "> POST $1 $2"
    expect "POST $1" "$4 $3" "$(curl -s -X POST -d "$2" -w ' %{http_code}' "http://127.0.0.1:$port$1")"
}

# text PATH TEXT, of status 200
text() {
    echo "> GET $1"
    expect "GET $1" "$2" "$(curl -s "http://127.0.0.1:$port$1")"
}

# get PATH STATUS ANSWER
get() {
    echo "> GET $1"
    expect "GET $1" "$3 $2" "$(curl -s -w ' %{http_code}' "http://127.0.0.1:$port$1")"
}

# file NAME STATUS ANSWER
file() {
    echo "> POST /goodsin, the file $1"
    expect "POST /goodsin" "$3 $2" "$(curl -s -X POST --data-binary "@$room/$1" -w ' %{http_code}' "http://127.0.0.1:$port/goodsin")"
}

# serve CONNECTIONS
serve() {
    echo "> lotd serve --db stock.db --port $port --max $1 --acts stock.acts"
    : >"$room/out"
    "$lotd" serve --db "$db" --port "$port" --max "$1" --acts "$acts" >"$room/out" &
    server=$!
    for _ in 1 2 3 4 5 6 7 8 9 10; do
        if [ -s "$room/out" ]; then break; fi
        sleep 1
    done
    expect "the server" "listening on 127.0.0.1:$port" "$(cat "$room/out")"
}

label=']C101095060001343521726093010AB12'
echo "> lotd label --day 2026-05-04 '$label'"
expect "the label" "GTIN 09506000134352
LOT AB12
EXPIRY 2026-09-30" "$("$lotd" label --day 2026-05-04 "$label")"

echo "> lotd init --db stock.db --day 2026-05-04"
"$lotd" init --db "$db" --day 2026-05-04
is_closed init

serve 21
post /items '{"key":"K-1","gtin":"09506000134352","name":"Oat drink"}' 200 '{"act":1}'
post /bins '{"key":"K-2","bin":"A-01","kind":"STORE"}' 200 '{"act":2}'
post /receipts "{\"delivery\":\"D-1\",\"line\":1,\"label\":\"$label\",\"bin\":\"A-01\",\"qty\":10}" 200 '{"act":3}'
post /orders '{"key":"K-3","order":"S-1","customer":"Corner Shop","lines":[{"gtin":"09506000134352","qty":12}]}' 200 '{"act":4,"short":2}'
get /orders/S-1 200 '{"class":"NORMAL","customer":"Corner Shop","lines":[{"gtin":"09506000134352","ordered":12,"reserved":[{"lot":"AB12","qty":10}],"shipped":0,"short":2,"staged":[]}],"order":"S-1","state":"OPEN"}'
get /stock/09506000134352 200 '{"gtin":"09506000134352","lots":[{"bins":[{"bin":"A-01","qty":10}],"expiry":"2026-09-30","lot":"AB12","reserved":10,"staged":0,"status":"FREE"}],"name":"Oat drink"}'
text /shortages/09506000134352 "SHORTAGES 09506000134352 Oat drink
SHORT S-1 2 Corner Shop
TOTAL 2"
# The same order sent again acts once.
post /orders '{"key":"K-3","order":"S-1","customer":"Corner Shop","lines":[{"gtin":"09506000134352","qty":12}]}' 200 '{"act":4,"short":2}'
# From now on its lots must have so many days left; the lot has that many.
post /leasts '{"key":"K-10","gtin":"09506000134352","days":149}' 200 '{"act":5,"returned":0}'
text /picklists/S-1 "PICK LIST S-1
CUSTOMER Corner Shop
STATE OPEN
ITEM 09506000134352 ORDERED 12 STAGED 0 SHIPPED 0 SHORT 2 LEAST 149
TAKE AB12 2026-09-30 10
FROM A-01 10"
# More is not picked than is reserved; what is reserved is picked and shipped, and then the lot is recalled.
post /picks '{"key":"K-4","order":"S-1","gtin":"09506000134352","lot":"AB12","bin":"A-01","qty":11}' 409 '{"code":"Q01"}'
post /picks '{"key":"K-4","order":"S-1","gtin":"09506000134352","lot":"AB12","bin":"A-01","qty":7}' 200 '{"act":6}'
post /shipments '{"key":"K-5","order":"S-1"}' 200 '{"act":7,"shipment":1}'
post /recalls '{"key":"K-6","gtin":"09506000134352","lot":"AB12"}' 200 '{"act":8,"returned":0}'
get /stock/09506000134352 200 '{"gtin":"09506000134352","lots":[{"bins":[{"bin":"A-01","qty":3}],"expiry":"2026-09-30","lot":"AB12","reserved":0,"staged":0,"status":"RECALLED"}],"name":"Oat drink"}'
notice="RECALL NOTICE 09506000134352 Oat drink
LOT AB12 EXPIRY 2026-09-30
BIN A-01 3
SHIPMENT 1 2026-05-04 7 S-1 Corner Shop
TOTAL BINS 3 SHIPPED 7"
text /notices/09506000134352/AB12 "$notice"

# A goods-in file is taken in whole or not at all; its rows come again by the line of the program, and act once.
cat >"$room/goods.csv" <<'END'
delivery,line,gtin,lot,expiry,bin,qty
D-2,1,09506000134352,AB13,261130,A-01,24
D-2,2,09506000134352,AB14,261200,A-01,24
END
sed 's/A-01,24$/B-99,24/' "$room/goods.csv" >"$room/no_bin.csv"
file no_bin.csv 409 '{"code":"U02","row":1}'
file goods.csv 200 '{"accepted":2,"repeated":0}'

# An urgent order is served before the one that came first, which is short again then.
post /urgents '{"key":"K-7","order":"S-2","customer":"Mill Inn","lines":[{"gtin":"09506000134352","qty":45}]}' 200 '{"act":11,"short":0}'
get /orders/S-2 200 '{"class":"URGENT","customer":"Mill Inn","lines":[{"gtin":"09506000134352","ordered":45,"reserved":[{"lot":"AB13","qty":24},{"lot":"AB14","qty":21}],"shipped":0,"short":0,"staged":[]}],"order":"S-2","state":"OPEN"}'
text /shortages/09506000134352 "SHORTAGES 09506000134352 Oat drink
SHORT S-1 2 Corner Shop
TOTAL 2"

wait "$server"
server=
is_closed serve
echo "> lotd import --db stock.db goods.csv"
expect "the import" "accepted 0 repeated 2" "$("$lotd" import --db "$db" "$room/goods.csv")"
echo "> lotd import --db stock.db no_bin.csv"
expect "the import" "lotd: K01 row 1" "$("$lotd" import --db "$db" "$room/no_bin.csv" 2>&1 || true)"
echo "> lotd notice --db stock.db 09506000134352 AB12"
expect "the notice" "$notice" "$("$lotd" notice --db "$db" 09506000134352 AB12)"
echo "> lotd card --db stock.db 09506000134352 AB12"
expect "the card" "STOCK CARD 09506000134352 Oat drink
LOT AB12 EXPIRY 2026-09-30
            3 2026-05-04 RECEIPT  D-1/1                               10          10
            7 2026-05-04 SHIPMENT 1                                   -7           3
IN HOUSE 3" "$("$lotd" card --db "$db" 09506000134352 AB12)"
echo "> lotd history --db stock.db | tail -1"
expect "the last act" "$(printf '11\t2026-05-04\tK/K-7\tURGENT\tS-2\tMill Inn\t09506000134352\t45')" "$("$lotd" history --db "$db" | tail -1)"
# Every row is that of the acts: with an urgent order and a file in it, from the day on which the books were made.
echo "> lotd audit --db stock.db"
expect "the audit" "audited 11 acts from 2026-05-04" "$("$lotd" audit --db "$db")"

# Each act was in the file of the acts before it was answered. So the file alone makes books that answer as the lost ones did.
# Of AB14 the urgent order has 21, and the one that came first the other three of the five that it still needs.
order='{"class":"URGENT","customer":"Mill Inn","lines":[{"gtin":"09506000134352","ordered":45,"reserved":[{"lot":"AB13","qty":4},{"lot":"AB14","qty":21}],"shipped":0,"short":0,"staged":[{"lot":"AB13","qty":20}]}],"order":"S-2","state":"OPEN"}'
stock='{"gtin":"09506000134352","lots":[{"bins":[{"bin":"A-01","qty":3}],"expiry":"2026-09-30","lot":"AB12","reserved":0,"staged":0,"status":"RECALLED"},{"bins":[{"bin":"A-01","qty":4}],"expiry":"2026-11-30","lot":"AB13","reserved":4,"staged":20,"status":"FREE"},{"bins":[{"bin":"A-01","qty":24}],"expiry":"2026-12-31","lot":"AB14","reserved":24,"staged":0,"status":"FREE"}],"name":"Oat drink"}'
pick='{"key":"K-8","order":"S-2","gtin":"09506000134352","lot":"AB13","bin":"A-01","qty":20}'
serve 100
post /picks "$pick" 200 '{"act":12}'
get /orders/S-2 200 "$order"
get /stock/09506000134352 200 "$stock"
echo "> kill -9; rm stock.db*"
kill -9 "$server"
wait "$server" 2>/dev/null || true
server=
rm "$db"*
day=$(head -n 1 "$acts" | cut -f 2)
echo "> lotd init --db stock.db --day $day"
"$lotd" init --db "$db" --day "$day"
echo "> lotd apply --db stock.db stock.acts"
expect "the acts" "applied 12 known 0 beyond 0" "$("$lotd" apply --db "$db" "$acts")"
serve 3
get /orders/S-2 200 "$order"
get /stock/09506000134352 200 "$stock"
post /picks "$pick" 200 '{"act":12}'
wait "$server"
server=
echo "> lotd audit --db stock.db"
expect "the audit" "audited 12 acts from 2026-05-04" "$("$lotd" audit --db "$db")"
echo "demo: every answer was the expected one; $how"
