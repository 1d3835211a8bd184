"""The names of code on the pages are those of the sources.

A name that a page gives in backticks, of a definition, a type or a call, has to stand in some file that is no page: else it is gone, and
what the page says of it is said of nothing. A paragraph of PROVED that begins with a crate's name needs the crate. Each edit and each loop
that its tables of wrong programs name has to be there, each loop has to be named, and the rows are counted.
"""
import glob
import os
import re

from tests.helper import Check

# the pages that speak of the repository's own code
PAGES = ["ARCHITECTURE", "CLAIMS", "DECISIONS", "PROVED", "PROVING", "RELEASE"]
# names of others: the kit's, and a form that was tried and isn't kept
OTHERS = {"Lts", "LoopPlan"}
CODE = re.compile(r"`([A-Za-z_][\w:.]*)`")
WORD = re.compile(r"[A-Za-z_]\w*")
CRATES = re.compile(r"^\*\*(\w+(?:(?:, | and )\w+)*)\*\*", re.M)


def words_of(folder):
    """The words of all files that are no pages, and of their paths."""
    found = set()
    for at, folders, names in os.walk(folder):
        folders[:] = [name for name in folders if name not in (".git", "out")]
        for name in names:
            path = os.path.join(at, name)
            found.update(WORD.findall(os.path.relpath(path, folder)))
            if not name.endswith(".md") and os.path.isfile(path):
                with open(path, encoding="utf-8", errors="replace") as file:
                    found.update(WORD.findall(file.read()))
    return found


def gone(text, words):
    """The names that stand nowhere; a word in small letters may be any word, so only those with a capital or a `_` are looked at."""
    text = re.sub(r"```.*?```", "", text, flags=re.S)
    parts = {part for name in CODE.findall(text) for part in re.split(r"::|\.", name) if re.search("[A-Z_]", part)}
    return sorted(parts - words - OTHERS)


def rows_of(text, head):
    """The rows of the table with this head: what is wrong, and what refuses it."""
    table = re.search(r"^\| %s \|\n\|[-|]*\n((?:\|.*\n)+)" % re.escape(head), text, re.M)
    return re.findall(r"^\| (.+?) \| (.+) \|$", table[1], re.M) if table else []


def edits_in(cell):
    """The edits that a row names: those behind a crate's name, each with its crate."""
    return [(crate, edit) for crate, edits in re.findall(r"\b(uvt?_\w+) (`\w+`(?:, `\w+`)*)", cell) for edit in re.findall(r"`(\w+)`", edits)]


def try_refusals(check: Check, folder, text):
    """The tables of wrong programs in PROVED."""
    rows = rows_of(text, "What is wrong | What refuses it")
    edits = [edit for _, cell in rows for edit in edits_in(cell)]
    none = [
        "%s %s" % (crate, edit)
        for crate, edit in edits
        if not any(os.path.isfile(os.path.join(folder, path, edit + ".edit")) for path in ("crates/%s/must-fail" % crate, "tests/edits/" + crate))
    ]
    check("the edits of PROVED", len(edits) > 30 and not none, "there is no edit %s" % ", ".join(none))
    tested = sum("by tests" in cell for _, cell in rows)
    said = "Clauses and types alone refuse %d of the %d rows; of the other %d" % (len(rows) - tested, len(rows), tested)
    check("the rows of PROVED", said in text, "it should say: %s" % said)
    named = {
        name
        for _, cell in rows_of(text, "What is wrong in both | Loop, and the law that refuses it")
        for name in re.findall(r"`(\w+)`", cell.split(":")[0])
    }
    loops = {os.path.basename(path)[:-5] for path in glob.glob(os.path.join(folder, "tests/order/loops/*.loop"))}
    check("the loops of PROVED", named == loops, "in one of the two: %s" % ", ".join(sorted(named ^ loops)))


def try_names(check: Check, folder):
    words = words_of(folder)
    for page in PAGES:
        with open(os.path.join(folder, "docs", page + ".md"), encoding="utf-8") as file:
            text = file.read()
        names = gone(text, words)
        check("the names of %s" % page, not names, "no file has %s" % ", ".join(names))
        if page == "PROVED":
            try_refusals(check, folder, text)
            crates = {name for row in CRATES.findall(text) for name in re.split(", | and ", row)}
            none = sorted(name for name in crates if not glob.glob(os.path.join(folder, "crates", name, "src")))
            check("the crates of PROVED", not none, "there is no crate %s" % ", ".join(none))
