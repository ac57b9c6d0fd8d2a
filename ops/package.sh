#!/bin/sh
# Makes a Debian package of the built lotd: the program, the units and timers for systemd with their scripts, the page, the
# proxy's files, the settings, the man pages, a completion for bash, and the documents. Prints the path of the package, in ops/out.
# LOTD names the program; else build.sh proves it, and LLVM builds it.
# What `dpkg` does with it: at install it makes the user lotd and the folder /var/lib/lotd, and starts a server anew that runs;
# at removal it ends the server; it never touches the books, the folder, the user and the proxy's log.
# Needs dpkg-dev (Debian).
set -eu
umask 022
cd "$(dirname "$0")/.."

if [ -z "${LOTD:-}" ]; then
    sh build.sh llvm >&2
    LOTD=crates/lotd/out/lotd
fi
room=$(mktemp -d)
trap 'rm -rf "$room"' EXIT
root=$room/root
shared=$root/usr/share/lotd
documents=$root/usr/share/doc/lotd

# The version is the program's and the moment of the last commit (or of SOURCE_DATE_EPOCH), so that a later one is a newer one.
made=${SOURCE_DATE_EPOCH:-$(git log -1 --format=%ct)}
version=$("$LOTD" --version | sed -n 's/^lotd \([0-9.]*\), schema .*/\1/p')+$(date -u -d "@$made" +%Y%m%d%H%M%S)
arch=$(dpkg --print-architecture)
maintainer="${DEBFULLNAME:-Lot stock} <${DEBEMAIL:-$(git log -1 --format=%ae)}>"

# replaced FILE OLD NEW: the text of a file with each OLD as NEW; there has to be one
replaced() {
    if ! grep -q "$2" "$1"; then
        echo "package: there is no $2 in $1" >&2
        exit 1
    fi
    sed "s|$2|$3|" "$1"
}

install -D -m 755 "$LOTD" "$root/usr/bin/lotd"
strip --strip-unneeded --remove-section=.comment --remove-section=.note "$root/usr/bin/lotd"
install -d "$root/usr/lib/systemd/system" "$shared" "$documents/examples"
# unit NAME: the unit of this name, over the program of the package
unit() {
    replaced "ops/$1.service" "/usr/local/bin/" /usr/bin/ |
        sed "/^#   systemctl daemon-reload/d; s| Put it into /etc/systemd/system, then:\$| As root: systemctl enable --now $1|" >"$root/usr/lib/systemd/system/$1.service"
}

for it in lotd lotd-standby lotd-day lotd-backup lotd-metrics lotd-reports; do unit "$it"; done
replaced ops/lotd-port.service /usr/local/share/lotd /usr/share/lotd >"$root/usr/lib/systemd/system/lotd-port.service"
install -m 644 ops/lotd-restart.service ops/lotd-alert@.service ops/lotd-again@.service ops/lotd-*.timer "$root/usr/lib/systemd/system/"
install -D -m 755 ops/lotd-generator "$root/usr/lib/systemd/system-generators/lotd-generator"
install -m 755 ops/lotd-day ops/lotd-backup ops/lotd-metrics ops/lotd-reports ops/lotd-letters ops/lotd-user "$root/usr/bin/"
replaced ops/lotd-proxy /usr/local/share/lotd /usr/share/lotd >"$root/usr/bin/lotd-proxy"
chmod 755 "$root/usr/bin/lotd-proxy"
install -m 644 ops/nginx.conf ops/lotd.nft "$shared/"
replaced ops/nginx-lotd.conf /usr/local/share/lotd /usr/share/lotd | sed '/^#   install -d/d; s/, readable by all:$/./' >"$shared/nginx-lotd.conf"
install -m 644 trials/wire.txt "$documents/examples/"
cp -r ops/page ops/reports "$shared/"
install -m 644 ops/openapi.yaml "$documents/"
cp -r README.md docs "$documents/"
install -m 644 ops/copyright ops/README.Debian "$documents/"
install -D -m 644 ops/lotd.bash "$root/usr/share/bash-completion/completions/lotd"
install -D -m 644 ops/lotd.sysusers "$root/usr/lib/sysusers.d/lotd.conf"
install -D -m 644 ops/lotd.logrotate "$root/etc/logrotate.d/lotd"
install -D -m 644 ops/lotd.default "$root/etc/default/lotd"
install -d "$root/var/log/lotd"
# The codes with the page's words, for lotd(1).
grep -o '\b[A-Z][0-9][0-9]: \["[^"]*"' ops/page/words.js | grep -v '^P01' | sort |
    sed 's/^\(...\): \["\(.*\)"$/.TP\n.B \1\n\2/' >"$room/codes"
for it in ops/man/*; do
    at=$root/usr/share/man/man${it##*.}
    install -d "$at"
    sed "/^\.\\\\\" The codes of the page's words\.\$/r $room/codes" "$it" | gzip -9n >"$at/${it##*/}.gz"
done
# Debian's own form: this version, and what CHANGES.md says of the newest.
{
    printf 'lotd (%s) unstable; urgency=medium\n\n' "$version"
    awk '/^## / { n++; if (n == 1) print "  * " substr($0, 4); next } n == 1 && /^- / { sub("^- ", "  - "); print "  " $0 }' docs/CHANGES.md | fold -s -w 68 | sed 's/^\([^ ]\)/      \1/; s/ *$//'
    printf '    docs/CHANGES.md has all of it.\n\n -- %s  %s\n' "$maintainer" "$(date -R -u -d "@$made")"
} >"$room/changelog"
gzip -9n <"$room/changelog" >"$documents/changelog.gz"
install -d "$root/usr/share/lintian/overrides"
cat >"$root/usr/share/lintian/overrides/lotd" <<'OVERRIDES'
# the page is handed out by the proxy, and is no document
lotd: package-contains-documentation-outside-usr-share-doc [usr/share/lotd/page/index.html]
# the owner has given no notice and no licence, and the file says so
lotd: copyright-without-copyright-notice
OVERRIDES

mkdir "$root/DEBIAN" "$room/debian"
printf 'Source: lotd\n\nPackage: lotd\nArchitecture: %s\n' "$arch" >"$room/debian/control"
depends=$(cd "$room" && dpkg-shlibdeps -O "root/usr/bin/lotd" | sed -n 's/^shlibs:Depends=//p')
cat >"$root/DEBIAN/control" <<CONTROL
Package: lotd
Version: $version
Architecture: $arch
Maintainer: $maintainer
Installed-Size: $(du -sk "$root/usr" | cut -f 1)
Depends: $depends, curl, nftables, passwd
Recommends: logrotate, nginx, openssl, sqlite3 (>= 3.38)
Suggests: bash-completion, openssh-client
Section: misc
Priority: optional
Description: stock system of a food wholesaler's warehouse
 Lot stock keeps items, bins, lots, stock, orders and reservations in one
 file, plans each order from the lots that expire first, and answers the
 requests of scanners over HTTP. A page for scanners and desks comes with it,
 for a proxy on the same machine to hand out.
CONTROL
# What was enabled before a removal is enabled behind the next installation, as Debian's own packages do it.
enabled="lotd.service lotd-standby.service lotd-day.timer lotd-backup.timer lotd-restart.timer lotd-metrics.timer lotd-reports.timer"
# script NAME: the maintainer script of this name, of standard input
script() {
    sed "s|@ENABLED@|$enabled|" >"$root/DEBIAN/$1"
    chmod 755 "$root/DEBIAN/$1"
}

script postinst <<'SCRIPT'
#!/bin/sh
set -e
if [ "$1" = configure ]; then
    if ! getent passwd lotd >/dev/null && command -v systemd-sysusers >/dev/null; then
        systemd-sysusers lotd.conf
    fi
    if ! getent passwd lotd >/dev/null; then
        useradd --system --user-group --home-dir /var/lib/lotd --no-create-home --shell /usr/sbin/nologin lotd
    fi
    if [ ! -e /var/lib/lotd ]; then
        install -d -m 700 -o lotd -g lotd /var/lib/lotd
    fi
    # Who asked what is for the administrators alone; a worker of nginx opens the file by its name.
    if [ -z "$2" ] && ! dpkg-statoverride --list /var/log/lotd >/dev/null; then
        chown root:adm /var/log/lotd
        chmod 751 /var/log/lotd
    fi
    for unit in @ENABLED@; do
        deb-systemd-helper unmask "$unit" >/dev/null || true
        if deb-systemd-helper debian-installed "$unit" && deb-systemd-helper --quiet was-enabled "$unit"; then
            deb-systemd-helper enable "$unit" >/dev/null || true
        fi
        deb-systemd-helper update-state "$unit" >/dev/null || true
    done
    if [ -d /run/systemd/system ]; then
        systemctl --system daemon-reload || true
        # policy-rc.d is asked: an image that is built starts nothing
        deb-systemd-invoke try-restart lotd-port.service @ENABLED@ || true
    fi
fi
SCRIPT
script prerm <<'SCRIPT'
#!/bin/sh
set -e
if [ "$1" = remove ] && [ -d /run/systemd/system ]; then
    deb-systemd-invoke stop @ENABLED@ lotd-port.service || true
fi
SCRIPT
script postrm <<'SCRIPT'
#!/bin/sh
# The books, their folder, the user and the proxy's log stay, also at a purge.
set -e
if [ "$1" = remove ] && command -v deb-systemd-helper >/dev/null; then
    deb-systemd-helper mask @ENABLED@ >/dev/null || true
fi
if [ "$1" = purge ] && command -v deb-systemd-helper >/dev/null; then
    deb-systemd-helper purge @ENABLED@ >/dev/null || true
    deb-systemd-helper unmask @ENABLED@ >/dev/null || true
fi
if [ -d /run/systemd/system ]; then
    systemctl --system daemon-reload || true
fi
SCRIPT
chmod -R u=rwX,go=rX "$root"
printf '%s\n' /etc/default/lotd /etc/logrotate.d/lotd >"$root/DEBIAN/conffiles"
(cd "$root" && find usr -type f -exec md5sum {} +) | LC_ALL=C sort -k 2 >"$root/DEBIAN/md5sums"
find "$root" -exec touch -h -d "@$made" {} +

mkdir -p ops/out
package=ops/out/lotd_${version}_$arch.deb
SOURCE_DATE_EPOCH=$made dpkg-deb --root-owner-group -Zxz --build "$root" "$package" >&2
echo "$package"
