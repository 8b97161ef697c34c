#!/usr/bin/env python3
"""The words of the contracts: checks/definitions.py [--write | --inner]

A contract of a public call cites words that stand in crates/NAME/specs, and each of these rests on others. Who wants to
know what is proved has to read these words, and no others. This script finds them in the sources. A call is public where
its crate's lib.rt lets others name it, or name the type or trait that it belongs to. The script compares the words with
docs/definitions.md and fails where that page isn't up to date, where a word has no sentence before it, where two words or
two types have one name, and where a word stands among those of the other kind: one that no public contract rests on has its
place in specs/Inner, and no other word stands there. It also fails where the number of a limit stands bare in code, in a
contract or in a word, and not as the limit's word or constant. The page begins with the words that the headline rests on, each before
those that it rests on itself; the rest follows by crate. --write writes the page anew, and --inner lists the words that no
public contract rests on.
"""
import re
import sys
from collections import defaultdict
from pathlib import Path

TOP = Path(__file__).resolve().parent.parent
PAGE = TOP / "docs" / "definitions.md"
TESTS = {"ring_tests", "http_tests", "store_tests", "program_tests", "test_fixtures"}
# The word that the headline is, and those below it or beside it whose own words make a part of the page.
TOP_WORD = ("builder", "Safety", "IsSafeRun")
PARTS = {TOP_WORD: "what operators are promised of a run", ("request_book", "Run", "Run"): "what a list of calls may come to",
         ("ring_place", "Rebalance", "IsRebalance"): "what one rebalance may do",
         ("ring_place", "Seeded", "IsSeeded"): "which ring a seed gives", None: "What several of these rest on"}
# What an impl gives for these is the proof of a law that its trait states.
LAWS = {"laws", "settled"}
WORD = re.compile(r"[A-Za-z_][A-Za-z0-9_]*(?:['-][A-Za-z0-9_]+)*")
DEFINED = re.compile(r"^\s*(?:abbrev |unfoldable )?pub (?:record |data )?([A-Za-z_][\w'-]*)")
# Where limits stand: each word there that is a number.
LIMITS = [("ring_words", "Limits"), ("store_rows", "Inner/Lacking"), ("store_tables", "Tables")]
# A number that is no more than this is a limit only where something is compared with it.
SMALL = 15
# Where the number of a limit stands for something else.
NO_LIMITS = {
    "the octets of an address": {"ring_words/src/address.rt": {256}, "ring_words/specs/Texts.antt": {256, 65536},
                                 "ring_tables/src/devices.rt": {256, 65536}},
    "the two bytes that a seat is in a row": {"store_rows/src/ring_reading.rt": {256}, "store_rows/src/ring_rows.rt": {256},
                                              "store_rows/specs/RingRows.antt": {256}},
    "the bytes of MD5": {"path_lookup/src/hash.rt": {16}},
    "the longest name of an account or a container": {"path_lookup/src/path.rt": {256}, "path_lookup/specs/Names.antt": {256}},
    "the greatest port, as the bound of its type": {"ring_words/src/bounded.rt": {65535}},
    "the spaces of a text that is cut": {"ring_tables/src/cells.rt": {16}},
    "a count of 32 bits, below which no crate has the limits": {"byte_streams/specs/Serving.antt": {2 ** 32}},
    "a place in the text of a route": {"http_routes/specs/Inner/Table.antt": {16}},
    "the number of a refusal": {"ring_messages/specs/Replies.antt": {16}, "ring_messages/src/replies.rt": {16}},
    "a number within the page for a browser": {"ring_page/src/lib.rt": {2 ** 32 - 1}},
}
HEAD = """# The words of the contracts

Contracts of public calls cite these words, or words that these rest on. Each stands once, in the lowest crate that needs
it, with the sentence that is told here before it. `checks/definitions.py --write` makes this page from the sources, and
the gate's script checks that it is up to date.

Rings, partitions, replicas, devices, weights, hours between moves and the hash of a path are OpenStack Swift's ('The
Rings'). MD5 is RFC 1321's. JSON is RFC 8259's as `serde_json` reads it, CSV is RFC 4180's as `csv` reads it, statuses are
RFC 9110's. All else is this project's own.
"""
HEADLINE_HEAD = """
## The headline

What operators are promised rests on these words of the repository and on no others, beside the types of requests and
replies. A word stands before those that it rests on, so read from the top down. `IsSafeRun` is the clause `safe` of what
serves lines and requests. `Run` is what a book does with its calls. `IsRebalance` is one rebalance, and `IsSeeded` says
which of the lawful rings it gives. The words of the other contracts follow by crate.
"""


def crates():
    names = [line.split(":")[0] for line in (TOP / "crates.txt").read_text().splitlines() if re.match(r"\w+:", line)]
    return [name for name in names if name not in TESTS]


class Word:
    def __init__(self, crate, file, name, told):
        self.crate, self.file, self.name, self.told = crate, file, name, told
        self.body = []
        self.rests_on = []


def imports(text, crate):
    """The names that a file brings in from the repository's specs, with crate and file of each."""
    found = {}
    pattern = r"use Rattle\.(\w+)\.specs\.([\w.]+?)(?:\.\{([^}]*)\}| as (\w+))"
    for owner, module, names, alias in re.findall(pattern, text):
        if module.startswith("declared."):
            continue
        if alias:
            found[alias + "."] = (owner, module, None)
        for name in names.split(","):
            name = name.strip()
            if name:
                old, _, new = name.partition(" as ")
                found[(new or old).strip()] = (owner, module, old.strip())
    return found


def read_specs(names):
    words = {}
    for crate in names:
        for path in sorted((TOP / "crates" / crate / "specs").rglob("*.antt")):
            module = ".".join(path.relative_to(TOP / "crates" / crate / "specs").with_suffix("").parts)
            if module == "Lib" or path.with_suffix("").is_dir():
                continue
            told, word, before = [], None, ""
            for line in path.read_text().splitlines():
                # A comment behind an empty line begins anew, so the heading of a part is no sentence of its first word.
                before, blank = line.strip(), not before
                if line.strip().startswith("--"):
                    if blank:
                        told = []
                    told.append(line.strip().lstrip("- ").strip())
                    continue
                match = DEFINED.match(line)
                field = line.startswith("  ") and word is not None and re.match(r"^\s+pub \S+ :", line) and not line.strip().startswith("abbrev")
                if match and not (field and word.is_record):
                    word = Word(crate, module, match.group(1), " ".join(told))
                    word.is_record = bool(re.match(r"^\s*pub record ", line))
                    word.indent = len(line) - len(line.lstrip())
                    words[(crate, module, word.name)] = word
                elif line and not line.startswith(" ") and not (word and line.startswith(word.name)):
                    word = None
                if word:
                    word.body.append(line)
                if line.strip():
                    told = []
    return words


def matched(text, start):
    depth = 0
    for at in range(start, len(text)):
        depth += {"{": 1, "}": -1}.get(text[at], 0)
        if depth == 0:
            return text[start + 1:at]
    return text[start + 1:]


def owner_of(head):
    """The type that an impl is for."""
    head = head[len("impl"):].strip()
    if head.startswith("<"):
        depth = 0
        for at, letter in enumerate(head):
            depth += {"<": 1, ">": -1}.get(letter, 0)
            if depth == 0:
                head = head[at + 1:]
                break
    return re.search(r"\w+", head.split(" for ")[-1].replace("&", "")).group(0)


def public_clauses(text):
    """The clauses of public functions and of traits, with the name of each function."""
    text = re.sub(r"(?m)^\s*//.*$", "", text).split("#[cfg(test)]\nmod tests {")[0]
    is_public, owner = False, ""
    spot = re.compile(r"(?m)^(?P<impl>impl\b[^{]*?)(?=\{|\n)|^pub trait (?P<trait>\w+)|^(?P<plain>(?:pub(?:\(crate\))? )?(?:struct|enum|mod)\b)"
                      r"|(?P<vis>pub(?:\(crate\))? )?(?:const )?fn (?P<fn>\w+)|(?P<kind>ensures|requires)\*?(?: \w+)? \{|ghost (?P<ghost>\w+)(?:: \{| = \{)")
    in_trait = False
    for match in spot.finditer(text):
        if match["impl"] is not None:
            in_trait = " for " in match["impl"]
            owner = owner_of(match["impl"]) + "::"
        elif match["trait"]:
            in_trait, owner = True, match["trait"] + "::"
        elif match["plain"]:
            in_trait, owner = False, ""
        elif match["fn"]:
            at_top = text.rfind("\n", 0, match.start()) + 1 == match.start()
            if at_top:
                in_trait, owner = False, ""
            is_public = match["vis"] == "pub " or in_trait
            function = owner + match["fn"]
        elif match["kind"] and is_public:
            yield function, matched(text, match.end() - 1)
        elif match["ghost"] and in_trait and match["ghost"] not in ("invariant", "inverse", "coded"):
            if match["ghost"] in LAWS and match[0].endswith("= {"):
                continue
            yield owner.rstrip(":"), matched(text, match.end() - 1)


def exported(crate):
    """The names that a library lets others name. Of a program, which has no lib.rt, those of its other files that its main does."""
    source = TOP / "crates" / crate / "src"
    if not (source / "lib.rt").exists():
        return set(re.findall(r"(?m)^use crate::[\w:]+::(\w+);", (source / "main.rt").read_text()))
    top = (source / "lib.rt").read_text()
    names = set(re.findall(r"\w+", " ".join(re.findall(r"(?m)^pub use [\w:]+::(\{[^}]*\}|\w+);", top))))
    for module in re.findall(r"(?m)^pub mod (\w+);", top):
        top += (source / f"{module}.rt").read_text()
    return names | set(re.findall(r"(?m)^pub (?:struct|enum|trait|type|(?:const )?fn) (\w+)", top))


def cited(text, crate, names, words, module=None):
    """The words of the repository that a text cites, in their order, by what its file brings in and what stands beside it."""
    found = {}
    for token in re.findall(r"(?:\w+\.)?[A-Za-z_][\w]*(?:['-]\w+)*", text):
        head, dot, tail = token.partition(".")
        if dot and head + "." in names:
            owner, where, _ = names[head + "."]
            found[owner, where, tail] = True
        for part in ([head, tail] if dot else [token]):
            if part in names and names[part][2]:
                found[names[part]] = True
            elif module and (crate, module, part) in words:
                found[crate, module, part] = True
    return [key for key in found if key in words]


def of_one_name(words):
    """The names that two words have, or two types of the crates' sources, with where they stand."""
    places = defaultdict(list)
    for crate, file, name in words:
        places["word", name].append(f"{crate}/specs/{file.replace('.', '/')}.antt")
    for crate in crates():
        for path in sorted((TOP / "crates" / crate / "src").rglob("*.rt")):
            if "tests" in path.parts or path.stem == "tests":
                continue
            text = path.read_text().split("#[cfg(test)]\nmod tests {")[0]
            for name in re.findall(r"(?m)^(?:pub(?:\(crate\))? )?(?:struct|enum|trait|type) (\w+)", text):
                places["type", name].append(str(path.relative_to(TOP / "crates")))
    return [f"the {kind} {name} is defined in {' and in '.join(found)}" for (kind, name), found in places.items() if len(found) > 1]


def limits():
    """The numbers of the limits, each with its word."""
    values, found = {}, {}
    for crate, module in LIMITS:
        text = (TOP / "crates" / crate / "specs" / f"{module}.antt").read_text()
        for name, value in re.findall(r"(?m)^abbrev pub \w+ : ℕ\n(\w+) = ([\w ^*]+)$", text):
            values[name] = eval(value.replace("^", "**"), {"__builtins__": {}}, values)
    for name, value in values.items():
        found.setdefault(value, name)
    return found


def bare(text, found):
    """The numbers of limits that stand in a text and aren't all of a word's body or of a constant, each with its line."""
    text = text.split("#[cfg(test)]\nmod tests {")[0]
    text = re.sub(r'(?s)"(?:[^"\\]|\\.)*"', lambda match: '"' + "\n" * match[0].count("\n") + '"', text)
    text = re.sub(r"(?m)(?://|--).*$", "", text)
    text = re.sub(r"(?m)^\w+ = (?:2 \^ )?[\d_]+$|^[ \t]*(?:pub )?const \w+: \w+ = [\d_]+;$", "", text)
    for match in re.finditer(r"(?P<sign>(?<!=)[≤<≥>]=? *)?(?<![\w.])(?:2 \^ (?P<power>\d+)|(?P<plain>\d[\d_]*))(?![\w.])", text):
        value = 2 ** int(match["power"]) if match["power"] else int(match["plain"].replace("_", ""))
        if value in found and (value > SMALL or match["sign"]):
            yield text.count("\n", 0, match.start()) + 1, value


def bare_limits():
    """Where the number of a limit stands for it, and exceptions that nothing needs."""
    found, faults, met = limits(), [], set()
    for crate in crates():
        for path in sorted((TOP / "crates" / crate).rglob("*.*t*")):
            file = str(path.relative_to(TOP / "crates"))
            if path.suffix not in (".rt", ".antt") or not re.match(r"\w+/(?:src|specs)/", file):
                continue
            if "tests" in path.parts or path.stem == "tests":
                continue
            for line, value in bare(path.read_text(), found):
                why = [why for why, files in NO_LIMITS.items() if value in files.get(file, ())]
                met.update((each, file, value) for each in why)
                if not why:
                    faults.append(f"{file}:{line}: {value} stands bare, where {found[value]} is its word")
    for why, files in NO_LIMITS.items():
        faults.extend(f"{file}: no {value} is {why}" for file, values in files.items() for value in values
                      if (why, file, value) not in met)
    return faults


def gather():
    names = crates()
    words = read_specs(names)
    for key, word in words.items():
        path = TOP / "crates" / word.crate / "specs" / (word.file.replace(".", "/") + ".antt")
        brought = imports(path.read_text(), word.crate)
        found = cited("\n".join(word.body), word.crate, brought, words, word.file)
        word.rests_on = [other for other in found if other != key]
    users = defaultdict(list)
    for crate in names:
        public = exported(crate)
        for path in sorted((TOP / "crates" / crate / "src").rglob("*.rt")):
            if "tests" in path.parts or path.stem in ("tests", "checker"):
                continue
            text = path.read_text()
            brought = imports(text, crate)
            for function, clause in public_clauses(text):
                if function.split("::")[0] not in public:
                    continue
                for key in cited(clause, crate, brought, words):
                    if (crate, function) not in users[key]:
                        users[key].append((crate, function))
    reached, left = set(), [key for key in users if users[key]]
    while left:
        key = left.pop()
        if key not in reached:
            reached.add(key)
            left.extend(words[key].rests_on)
    return names, words, users, reached


def downwards(words, tops):
    """These words and all that they rest on, each before those that it rests on itself."""
    seen, done = set(), []
    for top in reversed(tops):
        left = [(top, False)]
        while left:
            key, is_left = left.pop()
            if is_left:
                done.append(key)
            elif key not in seen:
                seen.add(key)
                left.append((key, True))
                left.extend((other, False) for other in words[key].rests_on)
    return done[::-1]


def headline(words):
    """The words of each part of the headline. What more than one part beside the first rests on stands in the last."""
    below = {top: set(downwards(words, [top])) for top in PARTS if top not in (TOP_WORD, None)}
    parts = {top: [] for top in PARTS}
    for key in downwards(words, [top for top in PARTS if top]):
        using = [top for top, keys in below.items() if key in keys]
        parts[TOP_WORD if not using else using[0] if len(using) == 1 else None].append(key)
    return parts


def row_of(word, file, citing):
    """The row of a word: its sentence, where it stands if that is to be told, and the public calls that cite it."""
    calls = ", ".join(f"`{function}`" for function in citing[:6])
    more = len(citing) - 6
    calls += f" and {more} more" if more > 0 else ""
    told = (word.told[:1].upper() + word.told[1:]).replace("|", "\\|")
    return f"| `{word.name}` | {told} |{file} {calls} |\n"


def page(names, words, users, reached):
    citing = {key: list(dict.fromkeys(function for _, function in users.get(key, []))) for key in words}
    out = [HEAD, HEADLINE_HEAD]
    listed = set()
    for top, keys in headline(words).items():
        title = f"`{top[2]}`: {PARTS[top]}" if top else PARTS[top]
        out.append(f"\n### {title}\n\n| Word | What it says | Where it stands | In the contracts of |\n|---|---|---|---|\n")
        for key in keys:
            file = f" `{words[key].crate}/specs/{words[key].file.replace('.', '/')}.antt` |"
            out.append(row_of(words[key], file, citing[key]))
        listed.update(keys)
    reached = reached - listed
    for crate in names:
        files = sorted({key[1] for key in reached if key[0] == crate}, key=lambda f: f)
        if not files:
            continue
        out.append(f"\n## `{crate}`\n")
        for file in files:
            out.append(f"\n### `specs/{file.replace('.', '/')}.antt`\n\n| Word | What it says | In the contracts of |\n|---|---|---|\n")
            for key, word in words.items():
                if key in reached and key[:2] == (crate, file):
                    out.append(row_of(word, "", citing[key]))
    return "".join(out)


def main():
    names, words, users, reached = gather()
    if "--inner" in sys.argv:
        for key, word in words.items():
            if key not in reached:
                print(f"{word.crate}/specs/{word.file}.antt: {word.name}")
        return 0
    untold = [f"{w.crate}/specs/{w.file}.antt: {w.name}" for k, w in words.items() if k in reached and not w.told]
    text = page(names, words, users, reached)
    if "--write" in sys.argv:
        PAGE.write_text(text)
    faults = [f"no sentence before {name}" for name in untold] + of_one_name(words) + bare_limits()
    for key, word in words.items():
        place = f"{word.crate}/specs/{word.file.replace('.', '/')}.antt"
        if key not in reached and not word.file.startswith("Inner"):
            faults.append(f"{place}: {word.name} carries proofs alone, so its place is specs/Inner")
        if key in reached and word.file.startswith("Inner"):
            faults.append(f"{place}: a public contract rests on {word.name}, so its place isn't specs/Inner")
    if PAGE.read_text() != text:
        faults.append("docs/definitions.md isn't up to date: checks/definitions.py --write")
    for fault in faults:
        print(fault)
    print(f"definitions: {len(reached)} words of public contracts, {len(words) - len(reached)} others")
    return 1 if faults else 0


if __name__ == "__main__":
    sys.exit(main())
