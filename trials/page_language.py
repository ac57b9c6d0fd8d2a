"""Steps of `trials/page.py` on the languages of the page: each text has words in each, one is chosen for the device, and all screens fit."""
import os
import subprocess
import sys
import time

import browser
from browser import by_hand, every, go, is_fit, is_told, one, run, scan, text, until, until_told
from page_house import OAT, entered, label, lots_of, passed
from server import TOP

CHOOSE = "const it = document.getElementById('language'); it.value = '%s'; it.dispatchEvent(new Event('change'))"


def speaks_german():
    told = subprocess.run([sys.executable, os.path.join(TOP, "trials/page_words.py")], capture_output=True, text=True)
    is_told("trials/page_words.py", (0, ""), (told.returncode, told.stdout if told.returncode else ""))
    go("device")
    run(CHOOSE % "de")
    until("another language", lambda: text("#title") == "Scanner und Anzeige" and run("return document.documentElement.lang") == "de")
    go("counts")
    is_told("the menu", "Zählen", run("return document.querySelector('nav a[href=\"#/counts\"]').lastChild.data"))
    before = lots_of()["L2"]["bins"][0]["qty"]
    scan(label("L2", 27))
    scan("A-01")
    by_hand("1.00")
    until_told("Gezählt: eine ganze Zahl von 0 bis 1.000.000", "refused")
    one("[name=found]").clear()
    one("[name=found]").click()
    by_hand(str(before))
    until_told("%d von L2 (Oat drink) auf A-01 gezählt" % before)
    for where in ("", "in", "pick", "pick/S-2", "moves", "adjustments", "lot/%s/L2" % OAT, "order", "order/S-2", "new", "item/" + OAT, "items", "bins", "days", "bin/A-01", "expiring/60", "sheets/A-01/A-02",
                  "carry/A-01", "by file/items", "state", "outbox", "device"):
        go(where)
        until("it is read", lambda: "/" not in where or text("main") != "")
        time.sleep(0.3)
        is_fit("de-" + (where.replace("/", "-") or "home"))
    go("pick")
    until("the tabs", lambda: len(every(".tabs button")) == 4)
    is_told("the tabs", ["Zu holen", "Versand", "Fehlt", "Alle"], [it.text.split("\n")[0].rsplit(" ", 1)[0] if "\n" not in it.text else it.text.split("\n")[0] for it in every(".tabs button")])
    go("device")
    run(CHOOSE % "")
    until("the device's own", lambda: text("#title") == "Scanner and screen")
    passed("each text has words in each language; German is chosen for a device, works, and fits on all screens")
