"""What the trials behind the proxy share: the files of `ops/nginx.conf` and `ops/nginx-lotd.conf` with their ports and files elsewhere, and nginx with it."""
import os
import shutil
import socket
import subprocess
import sys
import time

from server import TOP

USER, PASSWORD = "scanner", "secret"


def found(name, trial, packages):
    """The path of a program of the system, or the end of the trial with status 3."""
    path = shutil.which(name, path=os.environ.get("PATH", "") + ":/usr/sbin")
    if path is None:
        print("%s: there is no %s; on Debian: apt-get install %s" % (trial, name, packages), file=sys.stderr)
        sys.exit(3)
    return path


def write_users(room, *names):
    """The file of these names, each with the password."""
    hashed = subprocess.run(["openssl", "passwd", "-6", PASSWORD], check=True, capture_output=True, text=True).stdout
    with open(room + "/lotd.users", "w", encoding="utf-8") as file:
        file.writelines("%s:%s" % (name, hashed) for name in names)


def write_rights(room):
    """What the names of the trials may do, as `lotd-user` writes it. nginx reads it at its start."""
    with open(room + "/lotd.rights", "w", encoding="utf-8") as file:
        file.writelines('"~^%s$" %s;\n' % it for it in ((USER, "all"), ("picker-1", "pick"), ("watch-1", "read")))


def placed(name, room, *pairs):
    """A file of the repository in the room, with each old text as the new one; there has to be one of each."""
    with open(os.path.join(TOP, "ops", name), encoding="utf-8") as file:
        text = file.read()
    for old, new in pairs:
        if text.count(old) != 1:
            sys.exit("ops/%s: expected one %r, got %d" % (name, old.strip(), text.count(old)))
        text = text.replace(old, new)
    text = text.replace("/etc/nginx/lotd.crt", room + "/lotd.crt").replace("/etc/nginx/lotd.key", room + "/lotd.key")
    path = os.path.join(room, name)
    with open(path, "w", encoding="utf-8") as file:
        file.write(text)
    return path


def proxy_file(room, tls, port):
    """The files of the repository: nginx listens on `tls` and asks at `port`, and its page is that of the repository."""
    own = placed(
        "nginx-lotd.conf", room,
        ("listen 8443 ssl http2;", "listen 127.0.0.1:%d ssl http2;" % tls),
        ("listen 8443 ssl http2 default_server;", "listen 127.0.0.1:%d ssl http2 default_server;" % tls),
        ("server_name stock.example;", "server_name localhost;"),
        ("    server 127.0.0.1:8080;", "    server 127.0.0.1:%d;" % port),
        ("auth_basic_user_file /etc/nginx/lotd.users", "auth_basic_user_file %s/lotd.users" % room),
        ("include /etc/nginx/lotd.rights", "include %s/lotd.rights" % room),
        ("access_log /var/log/lotd/access.log", "access_log %s/lotd.log" % room),
        ("alias /var/lib/lotd-day/", "alias %s/state/" % room),
        ("alias /var/lib/lotd-backup/", "alias %s/state/" % room),
        ("alias /var/lib/lotd-metrics/", "alias %s/state/" % room),
        ("alias /var/lib/lotd-reports/", "alias %s/reports/" % room),
        ("root /usr/local/share/lotd", "root %s/shared" % room))
    kept = "".join("    %s_temp_path %s/%s;\n" % (it, room, it) for it in ("client_body", "proxy", "fastcgi", "uwsgi", "scgi"))
    return placed("nginx.conf", room, ("    include /etc/nginx/conf.d/lotd.conf;", kept + "    include %s;" % own))


def proxy(nginx, openssl, room, tls, port):
    """nginx, which listens. Its workers have another user, who may read the room."""
    os.chmod(room, 0o755)
    shutil.copytree(os.path.join(TOP, "ops/page"), room + "/shared/page")
    subprocess.run([openssl, *"req -x509 -newkey ec -pkeyopt ec_paramgen_curve:P-256 -nodes -days 2 -subj /CN=localhost -addext".split(), "subjectAltName=DNS:localhost",
                    "-keyout", room + "/lotd.key", "-out", room + "/lotd.crt"], check=True, capture_output=True)
    write_users(room, USER)
    write_rights(room)
    started = subprocess.Popen([nginx, "-p", room, "-c", proxy_file(room, tls, port), "-e", room + "/error.log",
                                "-g", "daemon off; pid %s/nginx.pid; error_log %s/error.log;" % (room, room)])
    for _ in range(100):
        try:
            socket.create_connection(("127.0.0.1", tls), timeout=1).close()
            return started
        except OSError:
            time.sleep(0.1)
    started.kill()
    with open(room + "/error.log", encoding="utf-8") as file:
        sys.exit("nginx does not listen: %s" % file.read())
