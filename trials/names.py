"""Each name in the documents is one of the tree: README.md, docs/*.md and the README.md of the crates and of the scenarios are
read, and of each name in backquotes it is asked whether there is such a crate, file, folder, route, line of the program, table,
column, scenario or code, or such a function, type, variant, field, module, clause or definition of the crates. `a::b` is asked
for within one crate, and so is a file of `src/`, `specs/` or `proofs/` in a row of a table that begins with the names of crates.
Each page that a link leads to is there, and each heading that is named behind it. And the picture in README.md has every crate of
crates.txt, each before those that it calls.

What is not found is printed with its file and line. EXCEPTIONS has the words that are of others: of the shell, of HTTP, of SQL,
of the kit, of the page's devices. Needs python3 alone, and takes a second or two. Exit status 0 only if nothing was printed.
"""
import os
import re
import subprocess
import sys

TOP = os.path.dirname(os.path.dirname(os.path.abspath(__file__)))
os.chdir(TOP)

# Words that stand in no file of the tree, and why a document has them.
EXCEPTIONS = {
    "std, and what Rust and the kit's language name": """
        requires ensures FileStore Disk Wary refl Date write_all Copy args goal c""",
    "the kit's libraries and tools": """
        std jiff jiff_core csv sqlite httparse matchit serde_json json percent_encoding http clap sqlite_disk
        RT_JOBS stdout OnOk OnErr IfErr TooBig HasCleanDisk KeepsCommit Survives
        understood""",
    "words of SQL and of SQLite": "sqlite_stat1",
    "tools of the host": "df dmesg awk python3 copytruncate COPY SIGSEGV",
    "words of HTTP, of a browser and of a device": "Origin Esc",
    "stands for any such name in a page that tells how something is added": "judge_X change_X X_seen X_told X_changes X_posted",
}
# Paths of the host, of the proxy, and of what an installation makes.
ELSEWHERE = ("/etc/", "/usr/", "/var/", "/mnt/", "/root/", "/dev/", "/tmp/", "/state/", "/page/", "/dots/", "/health", "/metrics", "/PATH")
# Files that the program, the kit or the service makes or is given.
MADE = {"crates/NAME", "crates/lotd/out/lotd", "crates/lotd/out/lotd.tried", "examples/nginx-lotd.conf", "examples/nginx.conf", "lotd.crt", "lotd-ca.crt", "lotd.key", "ops/out",
        "proofs/FILE/FUNCTION/Answers.antt", "proofs/FILE/FUNCTION/Invariants.antt", "proofs/NAME.antt",
        "specs/DecidedX.antt", "stock.acts-wal", "stock.db", "stock.db-wal", "stock.example"}
# What a document says otherwise than as a name of the tree, whole.
SAID = {"this type", "text/plain", "application/json"}

KINDS = "rt|antt|py|sh|js|css|html|svg|txt|md|edit|toml|service|timer|conf|db|c|webmanifest|png"


def text_of(path):
    with open(path, encoding="utf-8") as file:
        return file.read()


def files_of():
    listed = subprocess.run(["git", "ls-files"], capture_output=True, text=True, check=True).stdout.splitlines()
    return [path for path in listed if os.path.exists(path)] + ["trials/names.py"]


FILES = files_of()
FOLDERS = {path[:at] for path in FILES for at in (m.start() for m in re.finditer("/", path))}


def calls_of():
    """The crates of crates.txt, with those of them that each calls."""
    lines = [line.partition(":") for line in text_of("crates.txt").splitlines() if line.strip() and not line.startswith("#")]
    names = {name.strip() for name, _, _ in lines}
    return {name.strip(): [crate for crate in called.split() if crate in names] for name, _, called in lines}


CALLS = calls_of()
CRATES = list(CALLS)

RUST = re.compile(r"\b(?:fn|struct|enum|trait|mod|const|static|type|union) (\w+)|\bensures (\w+) \{|^\s*(?:pub(?:\([a-z]+\))? )?(?:ghost )?(\w+):"
                  r"|^\s+([A-Z]\w*)(?=[,({ ]|$)|\bghost (\w+) =|<(?:'\w+, )?(?:const )?([A-Z]\w*)\b|\b(\w+) as \w+", re.M)
SPEC = re.compile(r"^\s*(?:abbrev |data |record |module |unfoldable |pub )+(?:pub )?([^\s:({]+)|^\s+([A-Z]\w*) :|^([^\s:]+) :|^\s+([a-z]\w*) :", re.M)
QUOTED = re.compile(r'"((?:[^"\\\n]|\\.)*)"')


def defined():
    """The names that each crate defines, and the words within its texts."""
    names, words = {}, set()
    for path in FILES:
        parts = path.split("/")
        if parts[0] != "crates" or len(parts) < 3:
            continue
        own = names.setdefault(parts[1], set())
        if path.endswith(".rt"):
            text = text_of(path)
            own.update(name for found in RUST.findall(text) for name in found if name)
            own.add(parts[-1][:-3])
            if parts[1] not in TESTS:
                words.update(word for quoted in QUOTED.findall(text) for word in re.findall(r"[\w-]+", quoted))
        elif path.endswith(".antt"):
            own.update(name for found in SPEC.findall(text_of(path)) for name in found if name)
            own.add(parts[-1][:-5])
        elif path.endswith(".txt"):
            own.update(re.findall(r"^## (\w+)", text_of(path), re.M))
        elif path.endswith(".edit"):
            own.add(parts[-1][:-5])
    return names, words


# Their texts are data: no name of the tree is one because such a text has it.
TESTS = {"value_tests", "acts_tests", "host_tests", "book_trials", "trial_disk", "refused_calls"}
NAMES, WORDS = defined()
SOURCES = {path: text_of(path) for path in FILES if path.startswith("crates/") and path.endswith(".rt")}
ALL = set().union(*NAMES.values())
ROUTES = set(re.findall(r'"/([a-z]+)', text_of("crates/requests/src/routes.rt")))
LINES = set(re.findall(r'"([a-z]+)"', "".join(text_of(path) for path in FILES if path.startswith("crates/command_line/src/"))))
PAGES = {word for path in FILES if path.startswith("ops/") for word in re.findall(r"[\w-]+", text_of(path))}
# What lotd-metrics writes.
METRICS = {"lotd_" + name for name in re.findall(r"\bmetric (\w+) ", text_of("ops/lotd-metrics"))}
OTHERS = {word for words in EXCEPTIONS.values() for word in words.split()}


def is_file(path):
    path = path.rstrip("/")
    if path in MADE or path + "/" in MADE:
        return True
    if "*" in path:
        form = re.compile("(^|.*/)" + re.escape(path).replace(r"\*", "[^/]*") + "$")
        return any(form.match(one) for one in FILES)
    return any(one == path or one.endswith("/" + path) for one in FILES) or any(one == path or one.endswith("/" + path) for one in FOLDERS)


def is_word(word):
    return word in OTHERS or word in CRATES or word in ALL or word in WORDS or word in ROUTES or word in PAGES or word in METRICS or word.isdigit()


def is_path_of_names(token):
    """`crate::item`, `Type::item`, `module::item`: all in one crate, or the first one a library of the kit."""
    parts = [re.sub(r"<.*", "", part) for part in token.split("::")]
    if parts[0] in OTHERS and parts[0] not in CRATES:
        return True
    if parts[0] in CRATES and not all(part in NAMES[parts[0]] or part in exported(parts[0]) for part in parts[1:]):
        return False
    if parts[0] in CRATES and len(parts) == 2:
        return True
    owner, item = parts[-2:]
    if owner[0].isupper():
        return is_of_type(owner, item)
    return any(all(part in names for part in parts[-2:]) for names in NAMES.values())


def is_of_type(owner, item):
    """A method, a variant or a constant of the type: it stands in a file that declares the type or has an impl of it."""
    declares = re.compile(rf"\b(?:struct|enum|trait|type) {owner}\b|\bimpl\b[^{{;]*\b{owner}\b")
    has = re.compile(rf"\b(?:fn|const) {item}\b|^\s+{item}(?=[,({{ ]|$)", re.M)
    return any(declares.search(text) and has.search(text) for path, text in SOURCES.items())


def exported(crate):
    return {word for path in FILES if path == f"crates/{crate}/src/lib.rt" for use in re.findall(r"pub use ([^;]*);", text_of(path))
            for word in re.findall(r"\w+", use)}


def is_command(token):
    """Of a line that is typed: the scripts and files of the tree that it names, and the line of the program."""
    words = token.split()
    if words[0] == "lotd" and len(words) > 1 and re.fullmatch("[a-z]+", words[1]) and words[1] not in LINES:
        return False
    named = [word for word in words if re.fullmatch(r"(?:trials|ops|docs|crates)/[\w./-]+|[\w-]+\.(?:py|sh)", word)]
    return all(is_file(word) for word in named)


def is_known(token):
    token = token.replace("\\|", "|")
    if token in SAID or token in MADE or not re.search(r"[A-Za-z]{2}", token):
        return True
    if re.fullmatch(r"\w+(<[\w, <>]+>)?(::\w+(<[\w, <>]+>)?)+", token):
        return is_path_of_names(token)
    if re.fullmatch(r"\w+", token):
        return is_word(token)
    if re.fullmatch(r"\w+<[\w, <>]+>", token):
        return is_word(token.split("<")[0])
    if token.startswith(ELSEWHERE):
        return True
    if re.fullmatch(r"/[a-z]+(/\{\w+\})*", token):
        return token.split("/")[1] in ROUTES
    if re.fullmatch(rf"[\w./*-]+\.({KINDS})", token) or re.fullmatch(r"[\w.-]+/([\w./-]*)", token) and not token.startswith("."):
        return is_file(token)
    if re.fullmatch(r"\w+\.\w+", token):
        return is_word(token.split(".")[0])
    if re.fullmatch(r"[a-z][\w.-]*( .*)?", token):
        return is_command(token)
    return True


def is_link(page, path, heading):
    """There is such a file, and such a heading in it, where one is named behind the link."""
    path = os.path.normpath(os.path.join(os.path.dirname(page), path))
    if not os.path.exists(path):
        return False
    return not heading or re.search(rf"^#+ (?:\d+\. )?{re.escape(heading)}( \(.*)?$", text_of(path), re.M) is not None


def unknown_in(page, number, line):
    for token in re.findall(r"`([^`]+)`", line):
        if not is_known(token):
            yield f"{page}:{number}: `{token}`"
    for path, heading in re.findall(r'\]\(([\w./-]+)\)(?:, "([^"]+)")?', line):
        if not is_link(page, path, heading):
            yield f"{page}:{number}: {path} {heading}"


def crates_of(line, before):
    """The crates that a row of a table begins with; where its first field is empty, those of the row before it."""
    if not line.startswith("|"):
        return []
    first = line.split("|")[1]
    return [name for name in re.findall(r"`(\w+)`", first) if name in CRATES] if first.strip() else before


def elsewhere(page, number, line, crates):
    """Files that a row names within a part of a crate, and that none of its crates has."""
    for token in re.findall(r"`((?:src|specs|proofs)/[\w./-]+)`", line) if crates else []:
        if not any(path == f"crates/{crate}/{token}" or path.startswith(f"crates/{crate}/{token}/") for crate in crates for path in FILES):
            yield f"{page}:{number}: `{token}` is no file of {' or '.join(crates)}"


def unknown():
    """What the pages name or link to, and is not there. Blocks of text are passed over."""
    pages = ["README.md", "crates/README.md", "crates/scenarios/data/README.md"] + sorted(path for path in FILES if re.fullmatch(r"docs/\w+\.md", path))
    for page in pages:
        is_block, crates = False, []
        for number, line in enumerate(text_of(page).splitlines(), 1):
            is_block ^= line.startswith("```")
            crates = crates_of(line, crates)
            if not is_block:
                yield from unknown_in(page, number, line)
                yield from elsewhere(page, number, line, crates)


def picture():
    """The places of the crates in the picture of README.md, a number for those that stand side by side: the lines from above, and
    the marks between the words of each. Tests stand above all."""
    blocks = [block for block in re.findall(r"```\n(.*?)```", text_of("README.md"), re.S) if "lotd" in block and "house" in block]
    parts = blocks[-1].split("\n\n") if blocks else []
    lines = [line for part in reversed(parts) for line in part.splitlines()]
    groups = [group for line in lines for group in re.split(r"\s{2,}", line, maxsplit=1)[-1].split("·")]
    return {crate: place for place, group in enumerate(groups) for crate in group.split()}


def not_in_picture():
    """What the picture lacks or has otherwise than crates.txt; and what crates/README.md does."""
    places = picture()
    listed = set(re.findall(r"^\| `(\w+)` \|", text_of("crates/README.md"), re.M))
    for crate, called in CALLS.items():
        if crate not in places:
            yield f"README.md: the picture lacks {crate}"
        for other in called:
            if places.get(crate, -1) >= places.get(other, len(places)):
                yield f"README.md: {crate} calls {other}, and does not stand before it in the picture"
        if crate not in listed:
            yield f"crates/README.md: no line for {crate}"
    for crate in sorted((listed | set(places)) - set(CRATES)):
        yield f"no such crate as {crate}"


def main():
    told = list(unknown()) + list(not_in_picture())
    print("\n".join(told) if told else "every name is there")
    return 1 if told else 0


if __name__ == "__main__":
    sys.exit(main())
