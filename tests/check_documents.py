"""The documents against the repository: links lead somewhere, the paragraphs of docs/RULES.md are numbered without gaps, every
paragraph that is cited anywhere exists, docs/DEFINITIONS.md maps them all and names every file of definitions in the right table, and
the header's names have the numbers of the rules. And the map of the crates agrees with crates.txt."""
import pathlib
import re
import sys

ROOT = pathlib.Path(__file__).resolve().parent.parent
PAGES = [ROOT / "README.md", *sorted(ROOT.glob("docs/*.md")), *sorted(ROOT.glob("*/README.md"))]
RULES = (ROOT / "docs/RULES.md").read_text()
DEFINITIONS = (ROOT / "docs/DEFINITIONS.md").read_text()
PARAGRAPH = r"\d+\.\d+"

# The calls that users make, and what the programs answer: what their contracts speak of is to be believed.
CALLS = {
    "rules": "number place",
    "net": "judge",
    "net_reader": "read_net",
    "net_writer": "write_net",
    "placement_reader": "read_placement",
    "placement_writer": "write_placement",
    "solver": "solve",
    "finish": "finish",
    "checker": "check",
    "listing": "list_drives",
    "carry": "carry",
    "router": "mustorgyel_check",
    "field_reader": "read_field read_due",
    "field_writer": "write_field size",
    "mustorgyel": "answer_input answer_all",
    "whole": "solve on_files carry audit",
    "audit_line": "missing_line",
    "tally": "count line status",
}


# ---------------------------------------------------------------- links

def anchors(page):
    """The headings of a page, as its links name them."""
    heads = re.findall(r"^#+ (.+)$", page.read_text(), re.M)
    return {re.sub(r"[^\w -]", "", head.lower()).replace(" ", "-") for head in heads}


def broken_links():
    for page in PAGES:
        for target in re.findall(r"\]\(([^)\s]+)\)", page.read_text()):
            if "://" in target:
                continue
            path, _, anchor = target.partition("#")
            to = (page.parent / path).resolve() if path else page
            if not to.exists():
                yield f"{page.relative_to(ROOT)}: {target} is not there"
            elif anchor and anchor not in anchors(to):
                yield f"{page.relative_to(ROOT)}: {target}: no such heading"


# ---------------------------------------------------------------- paragraphs

def paragraphs():
    return re.findall(rf"^(?:\| )?\*\*({PARAGRAPH})\*\*", RULES, re.M)


def gaps():
    last = (0, 0)
    for name in paragraphs():
        here = tuple(map(int, name.split(".")))
        if here not in ((last[0], last[1] + 1), (last[0] + 1, 1)):
            yield f"docs/RULES.md: {name} comes after {last[0]}.{last[1]}"
        last = here


def is_made(file):
    """What `rt` keeps in a crate's out/."""
    parts = file.relative_to(ROOT).parts
    return parts[0] == "crates" and parts[2:3] == ("out",)


def texts():
    """Every file that may cite a paragraph."""
    folders = [ROOT / name for name in ("bench", "crates", "desk", "docs", "examples", "include", "tests")]
    files = [file for folder in folders for file in sorted(folder.rglob("*")) if not is_made(file) and file.is_file()]
    for file in [ROOT / "README.md", ROOT / "mustorgyel", *files]:
        try:
            yield file, file.read_text()
        except UnicodeDecodeError:
            continue


def unknown_citations():
    known = set(paragraphs())
    for file, text in texts():
        for first, others in re.findall(rf"RULES ({PARAGRAPH})((?:(?:,| and| to| or) {PARAGRAPH})*)", text):
            for name in [first, *re.findall(PARAGRAPH, others)]:
                if name not in known:
                    yield f"{file.relative_to(ROOT)}: RULES {name}: no such paragraph"
    for name in re.findall(rf"(?<![\w.*·]){PARAGRAPH}(?![\w.*])", re.sub(r"```.*?```", "", RULES, flags=re.S)):
        if name not in known | {"0.01"}:
            yield f"docs/RULES.md: {name}: no such paragraph"


def unmapped():
    rows = re.findall(rf"^\| ({PARAGRAPH}[^|]*) \|", DEFINITIONS, re.M)
    mapped = {name for row in rows for name in re.findall(PARAGRAPH, row)}
    for name in paragraphs():
        if name not in mapped and int(name.split(".")[0]) not in (9, 10):
            yield f"docs/DEFINITIONS.md: {name} is not mapped"


# ---------------------------------------------------------------- the map of the crates

def wrong_map():
    """Every crate stands on the map once, above all that it stands on."""
    drawn = re.search(r"^```map\n(.*?)^```", (ROOT / "docs/ARCHITECTURE.md").read_text(), re.M | re.S).group(1)
    rows = [row[row.find("│"):] for row in drawn.splitlines()]
    listed = re.findall(r"^(\w+)(?: staticlib)?:(.*)$", (ROOT / "crates.txt").read_text(), re.M)
    names = {name for name, _ in listed}
    at = [(name, number) for number, row in enumerate(rows) for name in re.findall(r"\w+", row) if name in names]
    line = dict(at)
    for name in sorted(names):
        if [other for other, _ in at].count(name) != 1:
            yield f"docs/ARCHITECTURE.md: {name} is not on the map once"
    for name, below in listed:
        for other in below.split():
            if name in line and other in line and not line[name] < line[other]:
                yield f"docs/ARCHITECTURE.md: {name} is not above {other}"


# ---------------------------------------------------------------- numbers

def wrong_numbers():
    """The names in the header for C are those of the table of refusals, with the same numbers."""
    table = re.findall(r"^\| (\d+) \| `(\w+)` \|", RULES, re.M)
    named = {re.sub(r"(?<!^)(?=[A-Z])", "_", name).upper(): number for number, name in table}
    if [number for number, _ in table] != [str(number) for number in range(1, 14)]:
        yield "docs/RULES.md: the refusals are not those from 1 to 13"
    header = (ROOT / "include/mustorgyel.h").read_text()
    for name, number in re.findall(r"^ +MUSTORGYEL_(\w+) = (\d+)", header, re.M):
        if named.get(name, "0") != number:
            yield f"include/mustorgyel.h: {name} is not {number} in docs/RULES.md"


# ---------------------------------------------------------------- files of definitions

USE = re.compile(r"^(?:ghost |pub )?use Rattle\.(\w+)\.specs\.(\w+)(?:\.\{([^}]*)\}| as (\w+))?", re.M)


def uses(text):
    """(crate, file, the names taken from it) of each line of `use`; types of the code and what stands in the kit are not among them."""
    for crate, file, names, whole in USE.findall(text):
        if file != "declared" and (ROOT / "crates" / crate).is_dir():
            taken = [name.split(" as ")[-1].strip() for name in names.split(",")] if names else [whole]
            yield crate, file, taken


def contract(source, function):
    """The lines that a function or a method ensures."""
    head = re.search(rf"^ *(?:pub )?fn {function}\b.*?^ *\{{", source, re.M | re.S)
    if not head:
        sys.exit(f"tests/check_documents.py: a call that it names is gone: {function}")
    return "\n".join(line for line in head.group(0).splitlines() if "ensures" in line)


def spoken_of():
    """The files that the calls' contracts name."""
    for crate, functions in CALLS.items():
        source = "\n".join(file.read_text() for file in sorted((ROOT / "crates" / crate / "src").glob("*.rt")))
        said = set(re.findall(r"\w+", " ".join(contract(source, function) for function in functions.split())))
        for owner, file, names in uses(source):
            if said.intersection(names):
                yield owner, file


def believed():
    """Those files, and all that they use."""
    found, left = set(), list(spoken_of())
    while left:
        crate, file = left.pop()
        if (crate, file) not in found:
            found.add((crate, file))
            left += [use[:2] for use in uses((ROOT / "crates" / crate / "specs" / f"{file}.antt").read_text())]
    return found


def linked(text):
    return set(re.findall(r"crates/(\w+)/specs/(\w+)\.antt", text))


def misplaced_files():
    stored = {(file.parts[-3], file.stem) for file in ROOT.glob("crates/*/specs/*.antt")}
    stored = {(crate, file) for crate, file in stored if file != "Lib"}
    listed, _, rest = DEFINITIONS.partition("## 1 The net")[0].partition("The answers' types")
    for crate, file in sorted(believed() - linked(listed)):
        yield f"docs/DEFINITIONS.md: {crate}'s {file} occurs in a contract and is not among what is to be believed"
    for crate, file in sorted(linked(listed) - believed()):
        yield f"docs/DEFINITIONS.md: {crate}'s {file} occurs in no contract and is among what is to be believed"
    for crate, file in sorted(stored - believed() - linked(rest)):
        yield f"docs/DEFINITIONS.md: {crate}'s {file} is not among the inner files"


def unknown_names():
    """Names of definitions, laws and functions that docs/DEFINITIONS.md gives and that stand nowhere in the crates."""
    files = [file for kind in ("rt", "antt") for file in sorted(ROOT.glob(f"crates/**/*.{kind}")) if not is_made(file)]
    known = {word for file in files for word in re.findall(r"[\w-]+", file.read_text())}
    quoted = [name for name in re.findall(r"`([^`]+)`", DEFINITIONS) if "/" not in name]
    names = {part for name in quoted for part in re.findall(r"[\w-]{2,}", name)}
    crates = {file.name for file in ROOT.glob("crates/*")}
    for name in sorted(names - known - crates):
        yield f"docs/DEFINITIONS.md: {name} stands nowhere in the crates"


def main():
    wrong = [*broken_links(), *gaps(), *unknown_citations(), *unmapped(), *wrong_numbers(), *wrong_map(), *unknown_names(), *misplaced_files()]
    if wrong:
        sys.exit("\n".join(wrong))
    print(f"documents: {len(PAGES)} pages, {len(paragraphs())} paragraphs of the rules, {len(believed())} files of definitions to believe")


main()
