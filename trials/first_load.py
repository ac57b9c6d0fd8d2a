"""How long the page takes until it can be worked with, in a browser that has nothing of it, over a line of 400 ms there and back and
of 30,000 bytes a second: three times, and the median counts. Then once more, with what the browser has kept. The line is this
script's own, between the browser and the proxy: each byte comes 200 ms later, in its turn, and a connection 400 ms later.
Needs the Rattle kit and Debian's nginx, openssl, chromium, chromium-driver and python3-selenium, and takes half a minute. It has
three ports from PORT on.
Exit status 0 only if the first load takes at most SECONDS (4.5), and 3 where nginx, the browser or selenium is not there.
"""
import asyncio
import os
import statistics
import subprocess
import sys
import threading
import time

import browser
import server
from browser import chromedriver, until
from nginx import PASSWORD, USER, found, proxy

ONE_WAY, RATE, LIMIT = 0.2, 30_000, float(os.environ.get("SECONDS") or 4.5)

nginx, openssl = (found(name, "first_load", "nginx openssl") for name in ("nginx", "openssl"))
driver = chromedriver()
lotd, room, port = server.program(), server.room(), server.number("PORT", 18087)
tls, line = port + 1, port + 2
db = os.path.join(room, "stock.db")


class Way:
    """One way of the line, for all connections: bytes go one after another."""

    def __init__(self):
        self.free = 0.0

    async def carry(self, reader, writer):
        """What comes from the reader, later and no faster, to the writer."""
        loop, sent = asyncio.get_running_loop(), asyncio.Queue()

        async def arrive():
            while (it := await sent.get()) is not None:
                await asyncio.sleep(max(0.0, it[0] - loop.time()))
                writer.write(it[1])
            writer.close()

        arriving = asyncio.create_task(arrive())
        try:
            while part := await reader.read(1460):
                self.free = max(self.free, loop.time()) + len(part) / RATE
                sent.put_nowait((self.free + ONE_WAY, part))
                # As much as a line holds is on its way; the rest waits.
                await asyncio.sleep(max(0.0, self.free - loop.time() - ONE_WAY))
        except OSError:
            pass
        sent.put_nowait(None)
        await arriving


async def carried():
    up, down = Way(), Way()

    async def joined(reader, writer):
        await asyncio.sleep(2 * ONE_WAY)
        there, back = await asyncio.open_connection("127.0.0.1", tls)
        await asyncio.gather(up.carry(reader, back), down.carry(there, writer), return_exceptions=True)

    async with await asyncio.start_server(joined, "127.0.0.1", line) as relay:
        await relay.serve_forever()


def loaded():
    """The seconds until the page is there and knows what waits to be sent."""
    began = time.monotonic()
    browser.page.get("https://%s:%s@localhost:%d/page/" % (USER, PASSWORD, line))
    until("the page", lambda: browser.text("#title") != "" and "…" not in browser.text("#sent"))
    return time.monotonic() - began


def first():
    """In a browser of its own profile, which has nothing yet, and where nobody has logged in."""
    profile = os.path.join(room, "first-%d" % time.monotonic_ns())
    os.mkdir(profile)
    options = browser.webdriver.ChromeOptions()
    for word in ("--headless=new", "--no-sandbox", "--disable-gpu", "--disable-dev-shm-usage", "--user-data-dir=%s" % profile, "--no-first-run"):
        options.add_argument(word)
    options.accept_insecure_certs = True
    browser.page = browser.webdriver.Chrome(options=options, service=browser.Service(driver))
    try:
        browser.page.get("about:blank")
        return loaded(), loaded()
    finally:
        browser.end()


subprocess.run([lotd, "init", "--db", db, "--day", "2026-05-04"], check=True)
started = proxy(nginx, openssl, room, tls, port)
threading.Thread(target=lambda: asyncio.run(carried()), daemon=True).start()
try:
    with server.Server(lotd, db, port, 1_000_000, errors=subprocess.DEVNULL):
        times = [first() for _ in range(3)]
finally:
    started.terminate()
    started.wait()
for new, again in times:
    print("  the first load took %.1f s, the second %.1f s" % (new, again))
median = statistics.median(new for new, _ in times)
if median > LIMIT:
    sys.exit("first_load: the first load took %.1f s, more than %.1f" % (median, LIMIT))
print("first_load: %.1f s, within %.1f" % (median, LIMIT))
