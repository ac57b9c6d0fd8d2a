#!/bin/sh
# The units of the package on a real systemd: `sh trials/timers.sh ROOT`. ROOT is a folder with Debian, systemd and the package, as
# trials/package.sh makes it, whose books are made anew; it is booted as a container without a network of its own, and all is asked
# within. The day is opened, opened again, opened once a server that was down is up, and where somebody has used its key; books of a
# year ago are brought to today; a copy is made and audited, by the file of the acts too, by which nothing is stopped; old copies
# go; reports are made of the newest; a night without books, and one whose books are damaged, are failures, and the server runs behind each; so it does where the
# copy is killed, and while the folder of the copies does not answer; a server that cannot start has failed, tells it, and goes on
# by itself; who reaches the port; what is exposed of the units; metrics; the proxy's log and its rotation; a server that has just
# begun is not started anew; timers that are missed by night come with the next boot; a removal, and an installation behind it.
# Needs root, iproute2, python3, and systemd-nspawn of systemd-container.
# Exit status 0 only if all was as expected, and 3 where no container can be booted. Takes four minutes.
set -eu
root=$1
if ! command -v systemd-nspawn >/dev/null; then
    echo "timers: there is no systemd-nspawn; on Debian: apt-get install systemd-container" >&2
    exit 3
fi
machine=
leader=
other=

end() {
    if [ -n "$other" ]; then kill "$other" 2>/dev/null || true; fi
    if [ -n "$machine" ]; then kill -KILL "$machine" 2>/dev/null || true; wait "$machine" 2>/dev/null || true; fi
}
trap end EXIT

expect() {
    if [ "$2" != "$3" ]; then
        echo "timers: $1: expected: $2, got: $3" >&2
        within journalctl --no-pager -n 30 >&2 || true
        exit 1
    fi
}

within() {
    nsenter -t "$leader" -m -u -i -n -p -C /usr/bin/env -i PATH=/usr/sbin:/usr/bin:/sbin:/bin LC_ALL=C "$@"
}

# Boots the root, and waits until all of it runs. Status 3 where it does not.
boot() {
    systemd-nspawn -q -D "$root" --boot --register=no --keep-unit --private-network --console=pipe </dev/null >"$root/../console" 2>&1 &
    machine=$!
    for _ in $(seq 150); do
        leader=$(cat "/proc/$machine/task/$machine/children" 2>/dev/null | cut -d ' ' -f 1)
        if [ -n "$leader" ] && within systemctl is-system-running 2>/dev/null | grep -qE 'running|degraded'; then return; fi
        if ! kill -0 "$machine" 2>/dev/null; then break; fi
        sleep 0.2
    done
    echo "timers: no container can be booted here: $(tail -n 2 "$root/../console")" >&2
    exit 3
}

halt() {
    within systemctl poweroff || true
    wait "$machine" 2>/dev/null || true
    machine=
}

# What a unit came to, started once and waited for.
run() {
    within systemctl start "$1" >/dev/null 2>&1 || true
    within systemctl show -P Result "$1"
}

# What is asked through the proxy.
through() {
    within curl -sk -u scanner:secret "$@"
}

# What the user of the server asks of it.
asked() {
    within runuser -u lotd -- curl -s -m 20 "$@"
}

# Waits until the server answers.
answers() {
    for _ in $(seq 100); do
        if asked -o /dev/null http://127.0.0.1:8080/books; then return; fi
        sleep 0.1
    done
}

state() {
    through "https://localhost:8443/state/$1.json"
}

# one FIELD of what is handed out
one() {
    state "$1" | sed -n "s/.*\"$2\":\"\{0,1\}\([^\",}]*\).*/\1/p"
}

copies() {
    within sh -c 'ls /var/backups/lotd | grep -vc unsound'
}

today=$(date +%F)
sed -i -e 's/^NAME=.*/NAME=localhost/' -e 's/^PORT=.*/PORT=8080/' "$root/etc/default/lotd"
printf '[Service]\nEnvironment=TRIES=8 PAUSE=1\n' >"$root/quick.conf"
mkdir -p "$root/etc/systemd/system/lotd-day.service.d"
mv "$root/quick.conf" "$root/etc/systemd/system/lotd-day.service.d/"
boot
echo "  a machine with systemd $(within systemctl --version | head -1 | cut -d ' ' -f 2) is up"

year=$(date -d '1 year ago' +%F)
within lotd-proxy
within sh -c "rm -f /var/lib/lotd/stock.db*; umask 077; runuser -u lotd -- lotd init --db /var/lib/lotd/stock.db --day $year"
within systemctl enable --now lotd >/dev/null 2>&1
expect "what the server has in its environment" MALLOC_TRIM_THRESHOLD_=67108864 \
    "$(within systemctl show -P Environment lotd | cut -d ' ' -f 1)"
answers
expect "the state, before" 404 "$(through -o /dev/null -w '%{http_code}' https://localhost:8443/state/day.json)"

# Who reaches the port, and what is exposed of the units: 10 is all, 0 nothing.
for user in root nobody lotd www-data; do
    within runuser -u "$user" -- curl -s -m 5 -o /dev/null http://127.0.0.1:8080/books && echo "$user" || true
done >"$root/../reach"
expect "who reaches the port" "lotd www-data" "$(tr '\n' ' ' <"$root/../reach" | sed 's/ $//')"
expect "what is exposed" "lotd 0.9 lotd-day 0.9 lotd-metrics 0.9" "$(for unit in lotd lotd-day lotd-metrics; do
    echo "$unit $(within systemd-analyze security --no-pager "$unit.service" | sed -n 's/.*level for .*: \([0-9.]*\) .*/\1/p')"; done | tr '\n' ' ' | sed 's/ $//')"
within sh -c 'nft flush ruleset; systemctl start lotd-metrics'
expect "the table of the ports, behind a tool that empties all" lotd "$(within nft list tables | sed 's/table inet //')"
echo "  the port is reached by the proxy and the server's user alone"

# Another machine, which is a network of its own on this one, opens 150 connections to the proxy, and 20 more from another address.
unshare -n sleep 600 &
other=$!
sleep 1
ip link add lotd0 netns "$leader" type veth peer name lotd1 netns "$other"
within sh -c 'ip address add 192.0.2.1/24 dev lotd0; ip link set lotd0 up'
nsenter -t "$other" -n sh -c 'ip address add 192.0.2.2/24 dev lotd1; ip address add 192.0.2.3/24 dev lotd1; ip link set lotd1 up'
expect "connections at once of an address, and of another" "100 20" "$(nsenter -t "$other" -n python3 -c '
import socket
open_ones = []
def taken(count, address):
    before = len(open_ones)
    for _ in range(count):
        try:
            open_ones.append(socket.create_connection(("192.0.2.1", 8443), 5, (address, 0)))
        except OSError:
            pass
    return len(open_ones) - before
print(taken(150, "192.0.2.2"), taken(20, "192.0.2.3"))')"
kill "$other"
other=
echo "  an address has at most 100 connections to the proxy"

# The books have something of that day.
for it in 'items {"key":"I-1","gtin":"09506000134352","name":"Oat drink"}' 'bins {"key":"B-1","bin":"A-01","kind":"STORE"}' \
    "receipts {\"delivery\":\"D-1\",\"line\":1,\"label\":\"010950600013435217$(date -d '1 year' +%y%m%d)10L1\",\"bin\":\"A-01\",\"qty\":10}"; do
    asked -o /dev/null -d "${it#* }" "http://127.0.0.1:8080/${it%% *}"
done

# The day. Its key was used by somebody for something else.
asked -o /dev/null -d "{\"key\":\"DAY-$today\",\"bin\":\"DAY\",\"kind\":\"STORE\"}" http://127.0.0.1:8080/bins
expect "the day is opened, of books of a year ago" success "$(run lotd-day)"
expect "what the page has of it" "$today 200" "$(one day day) $(one day status)"
acts=$(one day act)
expect "the day is opened again" success "$(run lotd-day)"
expect "it is open" "S10 $acts" "$(one day code) $(asked http://127.0.0.1:8080/books | sed 's/.*"act":\([0-9]*\).*/\1/')"
expect "and is told once" 1 "$(within journalctl -u lotd-day -o cat --no-pager | grep -c '"act"')"
within systemctl stop lotd
within sh -c 'sleep 4; exec systemctl start lotd' &
expect "while the server was down" success "$(run lotd-day)"
wait $!
within systemctl stop lotd
expect "where it stays down" exit-code "$(run lotd-day)"
expect "which is told" lotd-day.service "$(within systemctl --failed --plain --no-legend | cut -d ' ' -f 1)"
expect "and shown" 0 "$(one day status)"
within systemctl start lotd
expect "and with the next hour" success "$(run lotd-day)"
echo "  the day: opened, opened again, with its key used, with the server down for a while and for long"

# The copy.
expect "a copy" success "$(run lotd-backup)"
expect "what the page has of it" "true 1" "$(one copy sound) $(one copy kept)"
expect "what the audit said" "audited $acts acts from $year" "$(one copy told)"
expect "who may read it" "root 700" "$(within sh -c 'stat -c "%U %a" /var/backups/lotd/*')"
expect "the server behind it" active "$(within systemctl is-active lotd)"
for day in 01 02 03 04 05 06 07 08 09 10 11 12 13 14 15 16; do within mkdir "/var/backups/lotd/2020-01-${day}T031500"; done
expect "the next copy" success "$(run lotd-backup)"
expect "how many are kept" "14 14" "$(copies) $(one copy kept)"
expect "the oldest of them" 2020-01-05T031500 "$(within ls /var/backups/lotd | head -1)"
within sh -c 'systemctl stop lotd; cp -p /var/lib/lotd/stock.db /sound.db; rm -f /sound.db-wal; if [ -e /var/lib/lotd/stock.db-wal ]; then cp -p /var/lib/lotd/stock.db-wal /sound.db-wal; fi'
python3 -c 'import sqlite3, sys; books = sqlite3.connect(sys.argv[1]); books.execute("UPDATE stock SET qty = qty + 1"); books.commit()' "$root/var/lib/lotd/stock.db"
expect "a copy that is not sound" exit-code "$(run lotd-backup)"
expect "what the page has of it" "false 14" "$(one copy sound) $(one copy kept)"
expect "it is kept beside the others" 1 "$(within ls /var/backups/lotd | grep -c unsound)"
within sh -c 'rm /var/lib/lotd/stock.db*; mkdir /away; systemctl reset-failed'
expect "no books" exit-code "$(run lotd-backup)"
expect "how many are kept" 14 "$(copies)"
expect "what the page has of it" "false" "$(one copy sound)"
within sh -c 'cp -p /sound.db /var/lib/lotd/stock.db; if [ -e /sound.db-wal ]; then cp -p /sound.db-wal /var/lib/lotd/stock.db-wal; fi; systemctl start lotd'
expect "a server that was ended is not started by a copy" inactive "$(within sh -c 'systemctl stop lotd; systemctl start lotd-backup; systemctl is-active lotd || true')"
echo "  copies: made, audited, the last 14 kept; without books, and of damaged ones, a failure"

# By the file of the acts, which is said once.
within sh -c 'install -d -m 700 -o lotd -g lotd /mnt/acts/lotd; sed -i "s|^#ACTS=|ACTS=|" /etc/default/lotd; systemctl daemon-reload; systemctl start lotd'
answers
expect "a copy of the books, once in a week" "success stopped" "$(within rm -f /var/lib/lotd-backup/stopped; run lotd-backup) $(one copy how)"
answers
before=$(within systemctl show -P MainPID lotd)
act=$(asked -d '{"key":"B-9","bin":"A-09","kind":"STORE"}' http://127.0.0.1:8080/bins | sed 's/[^0-9]//g')
expect "a copy by the file of the acts" "success applied audited $act acts from $year" "$(run lotd-backup) $(one copy how) $(one copy told)"
expect "the server, which was not stopped" "$before" "$(within systemctl show -P MainPID lotd)"
within mv /mnt/acts/lotd/stock.acts /mnt/acts/lotd/gone
act=$(asked -d '{"key":"B-10","bin":"A-10","kind":"STORE"}' http://127.0.0.1:8080/bins | sed 's/[^0-9]//g')
expect "an act that is in no file is told" exit-code "$(run lotd-metrics)"
expect "and by how much" "lotd_acts_file_behind $act" "$(through https://localhost:8443/metrics | grep ^lotd_acts_file_behind)"
expect "where the file of the acts is not there" "success stopped audited $act acts from $year" "$(run lotd-backup) $(one copy how) $(one copy told)"
answers
expect "and behind the start that follows" "success lotd_acts_file_behind 0" "$(run lotd-metrics) $(through https://localhost:8443/metrics | grep ^lotd_acts_file_behind)"
# A copy that is killed while the server is stopped, and a folder that does not answer.
within sh -c 'printf "#!/bin/sh\nsleep 30\n" >/usr/local/bin/cp; chmod 755 /usr/local/bin/cp; rm /var/lib/lotd-backup/stopped; systemctl start --no-block lotd-backup'
for _ in $(seq 100); do
    if within pgrep -x cp >/dev/null 2>&1 || within sh -c 'grep -lqs "^cp$" /proc/[0-9]*/comm'; then break; fi
    sleep 0.1
done
expect "the server, within the copy" inactive "$(within systemctl is-active lotd || true)"
within systemctl kill -s KILL lotd-backup
answers
expect "the server, behind a copy that was killed" active "$(within systemctl is-active lotd)"
expect "which is told" lotd-backup.service "$(within systemctl --failed --plain --no-legend | cut -d ' ' -f 1)"
within sh -c 'rm /usr/local/bin/cp; printf "#!/bin/sh\ncase \$* in *.part) sleep 30 ;; esac\nexec /bin/mkdir \"\$@\"\n" >/usr/local/bin/mkdir; chmod 755 /usr/local/bin/mkdir; systemctl start --no-block lotd-backup'
for _ in $(seq 100); do
    if within sh -c 'grep -qs "[.]part" /proc/[0-9]*/cmdline'; then break; fi
    sleep 0.3
done
answers
expect "the server, while the folder does not answer" "active 200" "$(within systemctl is-active lotd) $(through -o /dev/null -w '%{http_code}' https://localhost:8443/health)"
within sh -c 'systemctl stop lotd-backup; rm /usr/local/bin/mkdir; systemctl reset-failed'
expect "and the next copy" success "$(run lotd-backup)"
expect "what is left of those before" "0 0" "$(within sh -c 'ls /var/backups/lotd | grep -c part; ls /var/lib/lotd | grep -c copy' | tr '\n' ' ' | sed 's/ $//')"
echo "  copies by the file of the acts, with nothing stopped; killed, and into a folder that does not answer: the server runs"

# What is watched.
within systemctl start lotd-metrics
expect "metrics" "lotd_up 1 lotd_business_day_age_days 0 lotd_copy_sound 1" \
    "$(through https://localhost:8443/metrics | grep -E '^lotd_(up|business_day_age_days|copy_sound) ' | tr '\n' ' ' | sed 's/ $//')"
expect "the end of the certificate" "$(date -d "$(openssl x509 -enddate -noout -in "$root/etc/nginx/lotd.crt" | cut -d = -f 2)" +%s)" \
    "$(through https://localhost:8443/metrics | sed -n 's/^lotd_certificate_end_timestamp_seconds //p')"
within sh -c 'mkdir -p /etc/lotd; printf "#!/bin/sh\necho \$1 >>/alerts\n" >/etc/lotd/alert; chmod 755 /etc/lotd/alert; rm -rf /run/lotd-alert; mv /var/lib/lotd/stock.db /away.db; systemctl kill --kill-who=main lotd'
for _ in $(seq 300); do
    if [ "$(within systemctl is-failed lotd)" = failed ]; then break; fi
    sleep 0.1
done
expect "a server that cannot start" lotd.service "$(within systemctl --failed --plain --no-legend | cut -d ' ' -f 1)"
sleep 1
expect "which is told, once" "1 1" "$(within grep -c lotd.service /alerts) $(within journalctl -p alert -o cat --no-pager | grep -c 'lotd: lotd.service has failed')"
expect "and by the metrics" "success lotd_up 0 502" "$(run lotd-metrics) $(through https://localhost:8443/metrics | grep '^lotd_up ') $(through -o /dev/null -w '%{http_code}' https://localhost:8443/health)"
within sh -c 'touch -d "10 minutes ago" /var/lib/lotd-metrics/away'
expect "and after five minutes as a failure" exit-code "$(run lotd-metrics)"
within mv /away.db /var/lib/lotd/stock.db
for _ in $(seq 900); do
    if [ "$(within systemctl is-active lotd)" = active ]; then break; fi
    sleep 0.1
done
answers
expect "the server goes on by itself" "active 200" "$(within systemctl is-active lotd) $(through -o /dev/null -w '%{http_code}' https://localhost:8443/health)"
expect "and all is well" "success" "$(run lotd-metrics)"
expect "what failed" "" "$(within systemctl --failed --plain --no-legend)"
echo "  metrics, an alert; a server that cannot start has failed, and goes on by itself"

# The proxy's log: JSON, with what was received, and a month a file.
label=$(date -d '1 year' +%y%m%d)
through -o /dev/null -d "{\"delivery\":\"D-2\",\"line\":1,\"label\":\"010950600013435217${label}10L2\",\"bin\":\"A-01\",\"qty\":3}" https://localhost:8443/receipts
expect "who received" "scanner /receipts 200 D-2" "$(tail -n 1 "$root/var/log/lotd/access.log" |
    python3 -c 'import json, sys; it = json.loads(sys.stdin.read()); print(it["name"], it["target"], it["status"], json.loads(it["receipt"])["delivery"])')"
expect "times of each request" True "$(python3 -c 'import json, sys; print(all(0 <= it["seconds"] < 60 and "lotd_seconds" in it for it in map(json.loads, open(sys.argv[1]))))' "$root/var/log/lotd/access.log")"
within logrotate -f /etc/logrotate.d/lotd
through -o /dev/null https://localhost:8443/books
sleep 1
expect "the log behind its rotation" "1 access.log access.log-$(within date +%Y%m%d) 640 751" \
    "$(wc -l <"$root/var/log/lotd/access.log") $(within ls /var/log/lotd | tr '\n' ' ')$(within stat -c %a /var/log/lotd/access.log /var/log/lotd | tr '\n' ' ' | sed 's/ $//')"
echo "  the proxy's log has who received, as JSON, and is rotated"

# The reports.
expect "the reports" success "$(run lotd-reports)"
expect "who may read them" "lotd www-data 750" "$(within stat -c '%U %G %a' /var/lib/lotd-reports/now)"
expect "the page of the reports" "200 text/html; charset=utf-8" \
    "$(through -o /dev/null -w '%{http_code} %{content_type}' https://localhost:8443/reports/)"
expect "what is left beside them" 0 "$(within sh -c 'ls /var/tmp | grep -c lotd-reports || true')"
echo "  reports: made of the newest copy, handed out by the proxy"

# The start anew, and what comes late.
within systemctl start lotd
before=$(within systemctl show -P MainPID lotd)
run lotd-restart >/dev/null
expect "a server that has just begun" "$before" "$(within systemctl show -P MainPID lotd)"
for timer in day backup restart metrics reports; do
    within systemctl enable --now "lotd-$timer.timer" >/dev/null 2>&1
    expect "the timer of $timer" active "$(within systemctl is-active "lotd-$timer.timer")"
done
halt
for stamp in "$root"/var/lib/systemd/timers/stamp-lotd-*; do touch -d "10 days ago" "$stamp"; done
rm -rf "$root"/var/lib/lotd-day "$root"/var/lib/lotd-backup
boot
for _ in $(seq 100); do
    if [ "$(one day day)" = "$today" ] && [ "$(one copy sound)" = true ]; then break; fi
    sleep 0.3
done
expect "the day, after nights off" "$today S10" "$(one day day) $(one day code)"
expect "the copy, after nights off" true "$(one copy sound)"
expect "the server" active "$(within systemctl is-active lotd)"
expect "what failed" "" "$(within systemctl --failed --plain --no-legend)"
echo "  timers: on, and late where the machine was off"
within dpkg -r lotd >/dev/null 2>&1
expect "timers behind a removal" "" "$(within systemctl list-timers --no-legend | grep lotd || true)"
expect "who listens behind a removal" "" "$(within ss -ltnH 'sport = 8080')"
within dpkg -i /lotd.deb >/dev/null 2>&1
expect "what is enabled behind another installation" "enabled enabled enabled enabled" "$(within systemctl is-enabled lotd lotd-day.timer lotd-backup.timer lotd-restart.timer | tr '\n' ' ' | sed 's/ $//')"
within systemctl start lotd
answers
expect "the server behind it" active "$(within systemctl is-active lotd)"
within sh -c 'dpkg -P lotd >/dev/null 2>&1'
expect "books, copies, log and user behind a purge" "lotd root root lotd" "$(within sh -c 'stat -c %U /var/lib/lotd/stock.db /var/backups/lotd /var/log/lotd; getent passwd lotd | cut -d : -f 1' | tr '\n' ' ' | sed 's/ $//')"
echo "  a removal, an installation that knows what was enabled, a purge that keeps the books"
halt
