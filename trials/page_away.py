"""Steps of `trials/page.py` on a page that opens without proxy and network, and on the camera as a scanner, by a stand-in for the browser's
`BarcodeDetector`: no real camera was tried."""
import atexit
import os
import signal
import subprocess
import time

import browser
import nginx
from browser import by_hand, cdp, every, go, is_fit, is_told, one, press, run, scan, text, until, until_answered, until_told
from page_house import TLS, entered, label, lots_of, passed, programs, room


def proxy_down():
    with open(room + "/nginx.pid", encoding="ascii") as file:
        os.kill(int(file.read()), signal.SIGTERM)
    time.sleep(1)


def proxy_up():
    started = subprocess.Popen([programs[0], "-p", room, "-c", room + "/nginx.conf", "-e", room + "/error.log",
                                "-g", "daemon off; pid %s/nginx.pid; error_log %s/error.log;" % (room, room)])
    atexit.register(started.terminate)
    time.sleep(1)
    return started


def in_second_bin():
    return {it["bin"]: it["qty"] for it in lots_of()["L2"]["bins"]}.get("A-02", 0)


KEPT = """const done = arguments[0]; caches.open('lot-stock').then(it => it.keys()).then(all => done(all.map(it => new URL(it.url).pathname)))"""


def opens_without_network():
    """The page opens from what the device has, says that nothing answers, shows what waits, and sends it once."""
    go("moves")
    until("the worker", lambda: run("return Boolean(navigator.serviceWorker.controller)"))
    kept = until("the files that are kept", lambda: (lambda it: it if len(it) > 30 else None)(browser.page.execute_async_script(KEPT)))
    is_told("nothing of lotd is kept", [], [it for it in kept if not it.startswith("/page/")])
    before = in_second_bin()
    proxy_down()
    scan(label("L2", 27))
    scan("A-01")
    scan("A-02")
    by_hand("1")
    until("the sign", lambda: text("#sent") == "1 not answered yet, trying")
    go("outbox")
    until("what waits", lambda: "Moved 1 of L2" in text("main") and text("#sent") == "1 not answered yet, trying")
    go("bin/A-01")
    until("what a screen says", lambda: "No connection" in browser.said("#stale"))
    is_fit("away")
    proxy_up()
    until_answered()
    is_told("it stands once", before + 1, in_second_bin())
    with open(room + "/shared/page/page.css", "a", encoding="utf-8") as file:
        file.write("\n#brand { letter-spacing: 3px; }\n")
    go("")
    until("a new page, at the next start", lambda: run("return getComputedStyle(document.getElementById('brand')).letterSpacing") == "3px")
    passed("without proxy and network the page opens, says so, shows what waits and sends it once; nothing of lotd is kept; a new page comes at the next start")


def asks_for_the_password():
    """A start that is answered by 401 is left to the browser, which alone can ask for the password."""
    go("")
    nginx.write_users(room)
    browser.page.get("about:blank")
    browser.page.get("https://localhost:%d/page/" % TLS)
    until("the worker leaves it to the browser", lambda: browser.page.current_url.endswith("/page/?in"))
    nginx.write_users(room, nginx.USER, "picker-1")
    browser.log_in(nginx.USER)
    until("home", lambda: text("#title") == "Lot stock" and run("return location.search") == "")
    passed("a start that is answered by 401 is left to the browser, which asks for the password")


CAMERA = """window.BarcodeDetector = class { async detect() { const it = window.seen; window.seen = null; return it ? [{ rawValue: it }] : [] } };
Object.defineProperty(navigator, 'mediaDevices', { value: { getUserMedia: async () => new MediaStream() }, configurable: true })"""


def reads_by_camera():
    mark = cdp("Page.addScriptToEvaluateOnNewDocument", source=CAMERA)
    go("device")
    run("const it = document.getElementById('camera'); it.value = 'on'; it.dispatchEvent(new Event('change'))")
    go("counts")
    for seen, name in ((label("L2", 27)[3:], "lot"), ("]A0A-01", "bin")):
        one("#lens").click()
        until("what the camera sees", lambda: every("dialog video"))
        run("window.seen = %r" % seen)
        until("the field of the " + name, lambda: entered()[name] == {"lot": "L2", "bin": "A-01"}[name])
    one("#lens").click()
    until("what the camera sees", lambda: every("dialog video"))
    press("Back", "dialog")
    is_told("it is closed", [], every("dialog"))
    is_fit("camera")
    go("state")
    one("#lens").click()
    until("what the camera sees", lambda: every("dialog video"))
    run("window.seen = 'B-07'")
    until("the bin", lambda: text("#title") == "Bin B-07")
    cdp("Page.removeScriptToEvaluateOnNewDocument", identifier=mark["identifier"])
    run("localStorage.setItem('lot-stock/camera', '')")
    go("")
    is_told("a browser without it has no such button", False, one("#lens").is_displayed())
    passed("a camera as a scanner, by a stand-in for the browser's reader: a label, a bin, and where nothing is asked")
