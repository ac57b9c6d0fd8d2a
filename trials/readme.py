"""The lines of shell at the head of README.md, typed one after another into a bash with new books: what they print is what stands
there. Needs the Rattle kit, bash and curl, and takes a second or two; PORT stands in for 8080.
Exit status 0 only if all was as the page says.
"""
import os
import re
import signal
import subprocess
import sys

import server

lotd, room, port = server.program(), server.room(), server.number("PORT", 18087)
with open(os.path.join(server.TOP, "README.md"), encoding="utf-8") as file:
    lines = re.search(r"```\n(\$ .*?)```", file.read(), re.S)[1].replace("8080", str(port)).splitlines()
typed = [line[2:] for line in lines if line.startswith("$ ")]
expected = [line for line in lines if not line.startswith("$ ")]
# A person waits until the server says that it listens.
waits = f"until curl -s -o books.json 127.0.0.1:{port}/books; do sleep 0.1; done"
script = "\n".join(part for line in typed for part in ([line, waits] if line.endswith("&") else [line]))
os.symlink(lotd, room + "/lotd")
environment = {**os.environ, "PATH": f"{room}:{os.environ['PATH']}"}
with open(room + "/said", "w+", encoding="utf-8") as said:
    shell = subprocess.Popen(["bash", "-c", script], cwd=room, env=environment, stdout=said, stderr=subprocess.STDOUT, start_new_session=True)
    try:
        shell.wait(timeout=60)
    finally:
        os.killpg(shell.pid, signal.SIGKILL)            # the server among them
    said.seek(0)
    got = said.read().splitlines()
if got != expected:
    sys.exit("readme: expected:\n%s\ngot:\n%s" % ("\n".join(expected), "\n".join(got)))
print("readme: %d lines of shell, each answered as the page says" % len(typed))
