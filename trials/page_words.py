"""Whether each text of the page has words in each language of ops/page/words, with the same values in it, and no words are left over;
and whether a text stands in the page that is not said by the tag `say`. `python3 trials/page_words.py`, without the program; with
`--missing LANG` it prints the texts that LANG lacks. Status 0 only if nothing was printed."""
import glob
import json
import os
import re
import sys

TOP = os.path.dirname(os.path.dirname(os.path.abspath(__file__)))
PAGE = os.path.join(TOP, "ops/page")

# Texts that a person reads and that are the same in each language, or that no person reads: the name of the product, keys, faults.
SAME = {"Lot stock", "Enter", "Escape", "English", "Deutsch", "AbortError", "IDBTransaction", "Event", "HTMLInputElement", "BarcodeDetector", "en-GB", "RETURNS"}


def template(text, at):
    """The parts of the template that begins behind the backtick at `at`, and where it ends."""
    parts, now = [], ""
    while text[at] != "`":
        if text[at] == "\\":
            now += text[at:at + 2].encode().decode("unicode_escape") if text[at + 1] != "u" else chr(int(text[at + 2:at + 6], 16))
            at += 6 if text[at + 1] == "u" else 2
        elif text.startswith("${", at):
            parts, now, at = parts + [now], "", expression(text, at + 2)
        else:
            now, at = now + text[at], at + 1
    return parts + [now], at + 1


def expression(text, at):
    """Behind the brace that ends the expression which begins at `at`."""
    depth = 1
    while depth:
        if text[at] == "`":
            _, at = template(text, at + 1)
            continue
        if text[at] in "\"'":
            at = re.compile(r"(['\"])(?:\\.|(?!\1).)*\1").match(text, at).end()
            continue
        depth += {"{": 1, "}": -1}.get(text[at], 0)
        at += 1
    return at


def key_of(parts):
    return parts[0] + "".join("{%d}%s" % (at, part) for at, part in enumerate(parts[1:]))


def said(text):
    """The keys of a file, also of texts within the values of others."""
    text = re.sub(r"(?m)^\s*//.*$", "", text)
    return [key_of(template(text, found.end())[0]) for found in re.finditer(r"(?<![\w$])say`", text)]


def unsaid(text):
    """Literals that look like words for a person: a capital letter, a small one behind it; or small words and a space."""
    code = re.sub(r"(?m)(^|\s)//.*$|/\*\*?.*?\*/", "", text, flags=re.S)
    for found in re.finditer(r'(?<!say)(["`])((?:\\.|(?!\1).)*)\1', code):
        words = re.sub(r"\$\{.*", "", found[2])
        if re.match(r"^[A-Z][a-z]+", words) and found[2] not in SAME and not code[:found.start()].endswith("say"):
            yield found[2]


def values(text):
    return sorted(re.findall(r"\{\d\}", text))


def words_of(path):
    """The texts of a language: a file `export default {..}` of strings in double quotes."""
    with open(path, encoding="utf-8") as file:
        body = file.read()
    body = re.sub(r"(?m)^\s*//.*$", "", body)
    body = body[body.index("{"):body.rindex("}") + 1]
    return json.loads(re.sub(r",(\s*})$", r"\1", body))


def main():
    keys, faults = {}, []
    for path in sorted(glob.glob(PAGE + "/*.js") + glob.glob(PAGE + "/screens/*.js")):
        name = os.path.relpath(path, TOP)
        with open(path, encoding="utf-8") as file:
            text = file.read()
        for key in said(text):
            keys.setdefault(key, name)
        if not name.endswith("worker.js"):
            faults += ["%s: %r is not said by the tag say" % (name, it) for it in unsaid(text)]
    if "--missing" in sys.argv:
        path = os.path.join(PAGE, "words", sys.argv[-1] + ".js")
        has = words_of(path) if os.path.exists(path) else {}
        print("\n".join(json.dumps(key) for key in keys if key not in has))
        return 1
    languages = sorted(glob.glob(PAGE + "/words/*.js"))
    for path in languages:
        name, has = os.path.relpath(path, TOP), words_of(path)
        faults += ["%s: no words for %r (%s)" % (name, key, keys[key]) for key in keys if key not in has]
        faults += ["%s: words for %r, which the page does not say" % (name, key) for key in has if key not in keys]
        faults += ["%s: other values in the words for %r" % (name, key) for key in has if isinstance(has[key], str) and key in keys and values(key) != values(has[key])]
    print("\n".join(faults) if faults else "page_words: %d texts, each in English and in %d language%s more" % (len(keys), len(languages), "" if len(languages) == 1 else "s"))
    return 1 if faults else 0


if __name__ == "__main__":
    sys.exit(main())
