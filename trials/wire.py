"""The requests of `trials/wire.txt`, sent one after another to new books: each answer is that of the file, byte for byte, and each
route of README.md is among them. Needs the Rattle kit, and takes a second.
Exit status 0 only if all was as the file says. With `print` as its word it prints the file as lotd answers it.
"""
import os
import re
import subprocess
import sys

import server

lotd, room, port = server.program(), server.room(), server.number("PORT", 18086)
with open(os.path.join(server.TOP, "README.md"), encoding="utf-8") as file:
    page = file.read()
with open(os.path.join(server.TOP, "trials/wire.txt"), encoding="utf-8") as file:
    block = file.read()
subprocess.run([lotd, "init", "--db", room + "/stock.db", "--day", "2026-05-04"], check=True)


def answered(request):
    method, path, *body = request.split(" ", 2)
    body = body[0] if body else ""
    if not body.startswith("{"):
        body = body.replace("\\n", "\n")                    # the rows of a file
    text = server.get(path) if method == "GET" else server.post(path, body)
    return "%s %s" % server.ask(port, text)


with server.Server(lotd, room + "/stock.db", port, 1_000):
    pairs = [pair.split("\n", 1) for pair in block.strip().split("\n\n")]
    told = [answered(request).rstrip("\n") for request, _ in pairs]
if sys.argv[1:] == ["print"]:
    print("\n\n".join(request + "\n" + answer for (request, _), answer in zip(pairs, told)))
    sys.exit()
for (request, expected), got in zip(pairs, told):
    if expected != got:
        sys.exit("wire: %s: expected %r, got %r" % (request, expected, got))
routes = set(re.findall(r"`(/[a-z]+)[`/]", page.split("## Requests")[1].split("## Limits")[0]))
missing = routes - {re.match(r"[A-Z]+ (/[a-z]+)", request)[1] for request, _ in pairs}
if missing:
    sys.exit("wire: no request of %s" % ", ".join(sorted(missing)))
print("wire: %d requests of %d routes, each answered as the file says" % (len(pairs), len(routes)))
