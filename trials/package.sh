#!/bin/sh
# The Debian package of ops/package.sh in a clean root, which debootstrap makes of Debian's own packages: `dpkg -i`; lintian; the
# user and the folder are there, and nobody else may look into it; books are made, the server is started and asked through nginx,
# with the steps of docs/OPERATIONS.md; the certificate that devices trust signs for no other name; names and rights; the page is
# loaded, by a browser too where there is one; a newer package, a removal, a purge and an installation anew leave every byte of the
# books. Then the same root is booted with systemd, in a container without a network, and the units are tried (trials/timers.sh).
# Needs the Rattle kit, or LOTD, which names the program; root, debootstrap, dpkg-dev, curl and systemd-nspawn (Debian's
# systemd-container), and a mirror of Debian, or ROOT, a folder that debootstrap made before with what is included below, which is
# copied. The server has PORT, the proxy the next one.
# Exit status 0 only if all was as expected, and 3 where debootstrap is not there, this is not root, or no container can be booted:
# then the units are read by systemd-analyze alone, and all else was as expected.
set -eu
cd "$(dirname "$0")/.."

port=${PORT:-18094}
tls=$((port + 1))
for tool in debootstrap dpkg-shlibdeps curl; do
    if ! command -v "$tool" >/dev/null || [ "$(id -u)" != 0 ]; then
        echo "package: this needs root and $tool; on Debian: apt-get install debootstrap dpkg-dev curl" >&2
        exit 3
    fi
done
room=$(mktemp -d)
root=$room/root
server=
proxy=

end() {
    for it in $server $proxy; do kill "$it" 2>/dev/null || true; done
    wait
    rm -rf "$room"
}
trap end EXIT

# expect WHAT EXPECTED GOT
expect() {
    if [ "$2" != "$3" ]; then
        echo "package: $1: expected: $2, got: $3" >&2
        exit 1
    fi
}

within() {
    chroot "$root" /usr/bin/env -i PATH=/usr/sbin:/usr/bin:/sbin:/bin LC_ALL=C "$@"
}

# what is asked of lotd, through the proxy
through() {
    curl -s --cacert "$root/etc/nginx/lotd-ca.crt" -u scanner:secret "$@"
}

serve() {
    : >"$room/told"
    chroot "$root" setpriv --reuid lotd --regid lotd --init-groups lotd serve --db /var/lib/lotd/stock.db --port "$port" --max 1000000 >"$room/told" &
    server=$!
    for _ in $(seq 100); do
        if [ -s "$room/told" ]; then break; fi
        sleep 0.1
    done
    expect "the server" "listening on 127.0.0.1:$port" "$(cat "$room/told")"
}

stop() {
    kill "$server"
    wait "$server" || true
    server=
}

books() {
    (cd "$root/var/lib/lotd" && sha256sum stock.db*)
}

package=$(sh ops/package.sh)
if [ -n "${ROOT:-}" ]; then
    cp -a "$ROOT" "$root"
else
    debootstrap --variant=minbase --include=nginx,openssl,curl,systemd,systemd-sysv,dbus,nftables,logrotate,iproute2,man-db,sqlite3 "$(sed -n 's/^VERSION_CODENAME=//p' /etc/os-release)" "$root" >"$room/log" ||
        { tail -5 "$room/log" >&2; exit 1; }
fi
cp "$package" "$root/lotd.deb"
within dpkg -i /lotd.deb >"$room/log"
expect "the package" "install ok installed" "$(within dpkg-query -W -f '${Status}' lotd)"
expect "the folder" "lotd lotd 700" "$(within stat -c '%U %G %a' /var/lib/lotd)"
expect "the user's shell" /usr/sbin/nologin "$(within getent passwd lotd | cut -d: -f7)"
expect "whether all files are as they were made" "" "$(within dpkg -V lotd)"
expect "the list of what changed" "lotd ($(within dpkg-query -W -f '${Version}' lotd)) unstable; urgency=medium" "$(within zcat /usr/share/doc/lotd/changelog.gz | head -1)"
expect "the man pages" "lotd.1 lotd-backup.8 lotd-day.8 lotd-letters.8 lotd-metrics.8 lotd-proxy.8 lotd-reports.8 lotd-user.8" \
    "$(within sh -c 'cd /usr/share/man && ls man1 man8 | sed -n "s/^\(lotd.*\)\.gz$/\1/p" | tr "\n" " " | sed "s/ $//"')"
expect "a code in the man page" "Q04 From and to are the same bin" "$(within sh -c 'man lotd 2>/dev/null | grep -o "Q04 .*" | tr -s " "')"
expect "the copyright" "No licence has been given." "$(within tail -n 1 /usr/share/doc/lotd/copyright)"
if command -v lintian >/dev/null; then
    expect "errors and warnings of lintian" "" "$(lintian --allow-root "$package" | grep '^[EW]:' || true)"
    echo "  lintian has no error and no warning"
fi
for unit in lotd lotd-standby lotd-restart lotd-day lotd-backup lotd-metrics lotd-reports lotd-port lotd-alert@ lotd-again@; do
    if command -v systemd-analyze >/dev/null; then
        # Of a template the instance for the server.
        file=$(echo "$unit.service" | sed 's/@/@lotd.service/')
        sed "s|/usr/bin/lotd|$root/usr/bin/lotd|" "$root/usr/lib/systemd/system/$unit.service" >"$room/$file"
        expect "the unit $unit" "" "$(systemd-analyze verify --man=no "$room/$file" 2>&1 | grep "$file" || true)"
    fi
    case $unit in lotd-restart | lotd-day | lotd-backup) ;; *) continue ;; esac
    expect "whether the timer of $unit comes late too" Persistent=true "$(grep '^Persistent' "$root/usr/lib/systemd/system/$unit.timer")"
done
expect "words of the tree in the package's files" "" "$(grep -l /usr/local "$root"/usr/lib/systemd/system/lotd* "$root"/usr/share/lotd/lotd.nft "$root"/usr/share/lotd/nginx* || true)"
echo "  installed: user, folder, files, units, timers, changelog"

# By the steps of docs/OPERATIONS.md, with ports of their own.
within runuser -u lotd -- lotd init --db /var/lib/lotd/stock.db --day 2026-05-04
serve
sed -i -e 's/^NAME=.*/NAME=localhost/' -e "s/^PORT=.*/PORT=$port/" "$root/etc/default/lotd"
within lotd-proxy 2>"$room/log"
expect "what it says of nginx.conf" 1 "$(grep -c 'put the two numbers' "$room/log")"
echo secret | within lotd-user scanner all
echo secret | within lotd-user picker-1 pick
echo secret | within lotd-user watch-1 read
expect "the names" "scanner all picker-1 pick watch-1 read" "$(within lotd-user | tr '\n' ' ' | sed 's/ $//')"
within lotd-user watch-1 none
expect "the names, one less" "scanner all picker-1 pick" "$(within lotd-user | tr '\n' ' ' | sed 's/ $//')"
expect "whose the files are" "root www-data 640 root www-data 640 root root 600" \
    "$(within sh -c 'cd /etc/nginx; stat -c "%U %G %a" lotd.users lotd.rights lotd.key | tr "\n" " " | sed "s/ $//"')"
expect "a name with a colon" 2 "$(within lotd-user a:b all 2>/dev/null || echo $?)"
sed -i "s|listen 8443 |listen 127.0.0.1:$tls |" "$root/etc/nginx/conf.d/lotd.conf"

# What the devices trust: of this name and no other, and the key that signed it is gone. So another authority with the same limits
# is made, whose key is there.
expect "the certificate" "lotd.crt: OK" "$(cd "$root/etc/nginx" && openssl verify -CAfile lotd-ca.crt -verify_hostname localhost lotd.crt)"
expect "by which curve" "ASN1 OID: prime256v1" "$(openssl x509 -in "$root/etc/nginx/lotd.crt" -noout -text | grep -o 'ASN1 OID.*')"
expect "files of an authority's key" "" "$(grep -lr 'PRIVATE KEY' "$root/etc/nginx" "$root/run" | grep -v /lotd.key || true)"
mkdir "$room/kept"
mv "$root"/etc/nginx/lotd*.crt "$root/etc/nginx/lotd.key" "$room/kept"
openssl req -x509 -newkey rsa:2048 -nodes -days 9 -subj /CN=localhost -addext subjectAltName=DNS:localhost -keyout "$root/etc/nginx/lotd.key" -out "$root/etc/nginx/lotd.crt" 2>/dev/null
expect "what it says of a certificate that may sign for any site" 1 "$(within lotd-proxy 2>&1 | grep -c 'may sign for any site')"
mv "$room"/kept/* "$root/etc/nginx/"
sed -i "s|listen 8443 |listen 127.0.0.1:$tls |" "$root/etc/nginx/conf.d/lotd.conf"
sed -n '/^\[req\]$/,/^nameConstraints/{p;/^nameConstraints/q}' "$root/usr/bin/lotd-proxy" | sed "s/\\\$NAME/localhost/; s/\$NAME/localhost/" >"$room/authority"
openssl req -x509 -days 9 -config "$room/authority" -newkey ec -pkeyopt ec_paramgen_curve:P-256 -nodes -keyout "$room/a.key" -out "$room/a.crt" 2>/dev/null
for it in DNS:localhost DNS:bank.example IP:192.0.2.1; do
    printf 'subjectAltName=%s\n' "$it" >"$room/may"
    openssl req -new -subj "/CN=${it#*:}" -newkey ec -pkeyopt ec_paramgen_curve:P-256 -nodes -keyout "$room/b.key" -out "$room/b.csr" 2>/dev/null
    openssl x509 -req -days 9 -in "$room/b.csr" -CA "$room/a.crt" -CAkey "$room/a.key" -CAcreateserial -extfile "$room/may" -out "$room/b.crt" 2>/dev/null
    openssl verify -CAfile "$room/a.crt" "$room/b.crt" >>"$room/verdicts" 2>&1 || true
done
expect "what an authority with these limits may sign" "OK permitted subtree violation excluded subtree violation" \
    "$(grep -o 'OK$\|permitted subtree violation\|excluded subtree violation' "$room/verdicts" | tr '\n' ' ' | sed 's/ $//')"
rm -f "$root/etc/nginx/sites-enabled/default"
expect "the file beside what Debian's nginx has" 0 "$(within nginx -t -q >"$room/log" 2>&1; echo $?)"
cp "$root/usr/share/lotd/nginx.conf" "$root/etc/nginx/nginx.conf"
chroot "$root" nginx -g 'daemon off;' &
proxy=$!
for _ in $(seq 100); do
    if through -o /dev/null "https://localhost:$tls/page/"; then break; fi
    sleep 0.1
done
expect "an item" '{"act":1}' "$(through -d '{"key":"I-1","gtin":"09506000134352","name":"Oat drink"}' "https://localhost:$tls/items")"
expect "of another origin" 403 "$(through -o /dev/null -w '%{http_code}' -H 'Origin: https://evil.example' -d '{}' "https://localhost:$tls/items")"
expect "a bin of a picker" '{"code":"P01"}' "$(curl -s --cacert "$root/etc/nginx/lotd-ca.crt" -u picker-1:secret -d '{"key":"B-1","bin":"A-01","kind":"STORE"}' "https://localhost:$tls/bins")"
expect "without a password" 401 "$(curl -s --cacert "$root/etc/nginx/lotd-ca.crt" -o /dev/null -w '%{http_code}' "https://localhost:$tls/page/")"
expect "the state without a password" 401 "$(curl -s --cacert "$root/etc/nginx/lotd-ca.crt" -o /dev/null -w '%{http_code}' "https://localhost:$tls/state/copy.json")"
(cd ops/page && find . -type f) | while read -r file; do
    through "https://localhost:$tls/page/$file" | cmp - "ops/page/$file"
done
if command -v chromedriver >/dev/null; then
    python3 trials/browser.py "$room" "$tls" item/09506000134352 "Oat drink"
    echo "  the page is loaded by a browser, and shows the item"
fi
kill "$proxy"
wait "$proxy" || true
proxy=
stop
echo "  the server and the proxy answer, by the files that the package brings; every file of the page is handed out"

before=$(books)
within dpkg -i /lotd.deb >"$room/log"
expect "the books behind another installation" "$before" "$(books)"
within dpkg -r lotd >"$room/log"
expect "the books behind a removal" "$before" "$(books)"
expect "whether the program is gone" gone "$([ -e "$root/usr/bin/lotd" ] || echo gone)"
within dpkg -i /lotd.deb >"$room/log"
within dpkg -P lotd >"$room/log"
expect "the books behind a purge" "$before" "$(books)"
expect "the folder behind a purge" "lotd lotd 700" "$(within stat -c '%U %G %a' /var/lib/lotd)"
within dpkg -i /lotd.deb >"$room/log"
serve
expect "what they hold" '{"gtin":"09506000134352","lots":[],"name":"Oat drink"}' "$(curl -s "http://127.0.0.1:$port/stock/09506000134352")"
stop
expect "an audit" "audited 1 acts from 2026-05-04" "$(within runuser -u lotd -- lotd audit --db /var/lib/lotd/stock.db)"
echo "  another installation, a removal and a purge leave every byte of the books"

status=0
sh trials/timers.sh "$root" || status=$?
case $status in
    0) echo "package: all was as expected" ;;
    3) echo "package: all was as expected, but the timers were not tried" ;;
esac
exit "$status"
