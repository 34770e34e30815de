"""Compares docs/PROMISES.md and the pages of the crates with the sources: on which definitions the clauses of `run_card` rest, and which clauses there are.

It prints a line for each difference, which says what to change, and nothing where there is none. With the word `needed` it prints
the files of specs/ on which those clauses rest, and with `why` and names of such files by what each of their definitions is reached.

A definition is reached where its name stands in a clause of `run_card`, in a contract of the traits of its bounds, or in a
definition that is reached; and what a type's invariant and value say, where the type is.
"""

import functools
import re
import sys
from pathlib import Path

ROOT = Path(__file__).resolve().parent.parent
CRATES = ROOT / "crates"
PAGE = ROOT / "docs" / "PROMISES.md"
RUN = CRATES / "card_run" / "src" / "run.rt"

WORD = re.compile(r"(?<![\w.)])[A-Za-z_][A-Za-z0-9_']*(?:-[A-Za-z0-9_']+)*|[^\sA-Za-z0-9_(){}\[\],;.]+")
NAME = re.compile(r"[a-z_][A-Za-z0-9_']*(?:-[A-Za-z0-9_']+)*")
USE = re.compile(r"^\s*(ghost |pub |pub\(crate\) )*use ([\w:.]+?)(?:(?:\.|::)\{(.*)\}|(?: as (\w+))?);?\s*$")
# What a clause is made of: variables behind a λ, in front of a type, of a line of a record or of `do`; fields; brackets; words.
TOKEN = re.compile(
    r"λ([^.]*)\.|[({]([\w' -]+)(?= : )|^ +(?:pub )?([\w']+)(?= (?::|←) )|([\w']+)(?= = )|[(){}]|" + WORD.pattern, re.M)
TYPE_ITEM = re.compile(r"^\s*(?:pub(?:\(crate\))? )?(?:struct|enum|trait|const|type) (\w+)")


def free_in(text, bound):
    """The names and signs of a clause that aren't its variables: those are bound on its left, behind a λ or a name of a
    record, in front of an arrow, or with a type, each up to the end of its brackets."""
    scopes, found = [set(bound)], set()
    tokens = TOKEN.finditer(text)
    waiting = []
    for token in tokens:
        behind_lambda, typed, of_line, field = token.groups()
        word = token[0]
        if behind_lambda is not None:
            scopes[-1] |= set(NAME.findall(behind_lambda))
        elif typed is not None:
            waiting.append((len(scopes), set(NAME.findall(typed))))
            scopes.append(set(scopes[-1]))
        elif of_line is not None:
            scopes[-1].add(of_line)
        elif field is not None:
            pass
        elif word in "({":
            scopes.append(set(scopes[-1]))
        elif word in ")}":
            if len(scopes) > 1:
                scopes.pop()
            if waiting and waiting[-1][0] == len(scopes):
                scopes[-1] |= waiting.pop()[1]
        elif word not in scopes[-1]:
            found.add(word)
    return found


def names_of(item):
    """What stands for a name in a text: of `◌+◌` it is `+`."""
    return [part for part in item.split("◌") if part] if "◌" in item else [item]


class Source:
    """A file: what it uses, by the name it has here, and its items, by their names."""

    def __init__(self, path):
        self.path = path
        self.uses = {}
        self.items = {}
        self.constructors = set()
        (self.read_specs if path.suffix == ".antt" else self.read_source)(path.read_text(encoding="utf-8").splitlines())

    def take_use(self, line):
        found = USE.match(line)
        if not found:
            return False
        path, names, alias = found[2].replace("::", "."), found[3], found[4]
        for each in (names.split(",") if names else [path.rpartition(".")[2] + (f" as {alias}" if alias else "")]):
            name, _, here = each.strip().partition(" as ")
            for sign in names_of(here or name):
                self.uses.setdefault(sign, []).append((path, name if names else None))
        return True

    def read_specs(self, lines):
        """An item goes to the next line that begins one. The constructors of data are names of it, too."""
        text, name, is_data = [], None, False
        for line in lines + ["pub end :"]:
            if self.take_use(line) or line.startswith("--"):
                continue
            if re.match(r"(abbrev|unfoldable|pub|private) ", line) or re.match(r"\S+ : ", line):
                for sign in names_of(name) if name else []:
                    self.items.setdefault(sign, []).append("\n".join(text))
                name = re.match(r"(?:(?:abbrev|unfoldable|pub|record|data|private) )*([^\s(:]+)", line)[1]
                text, is_data = [], " data " in f" {line}"
            text.append(re.sub(r"--.*", "", line))
            constructor = re.match(r"  (?:pub )?(\w+) :", line)
            if is_data and constructor:
                self.items.setdefault(constructor[1], []).append(line)
                self.constructors.add(constructor[1])

    def clauses(self, name):
        """The clauses of an item, each with its variables."""
        for item in self.items.get(name, []):
            for clause in re.split(r"\n(?=\S)", item):
                left = clause.split(" = ")[0] if self.path.suffix == ".antt" and " = " in clause else ""
                yield clause, {each for each in NAME.findall(left) if not self.is_constructor(each)} - {name}

    def is_constructor(self, name):
        """Whether a name in a pattern is no variable."""
        return name in self.constructors or any("TheVariants" in path or is_data_of(path, at) for path, at in self.uses.get(name, []))

    def read_source(self, lines):
        """A type has its own lines, and those of its invariant and its view."""
        name, depth, text = None, 0, []
        for line in lines:
            if self.take_use(line):
                continue
            found = TYPE_ITEM.match(line) or re.match(r"impl(?:<.*>)? (?:\w+(?:<.*?>)? for )?(\w+)", line)
            if name is None and found:
                name, text, depth = found[1], [], 0
                is_type = bool(TYPE_ITEM.match(line)) or " Model for " in line
            if name is None:
                continue
            code = re.sub(r"//.*", "", line)
            if is_type or TYPE_ITEM.match(line):
                text.append(code)
            depth += code.count("{") - code.count("}")
            if depth <= 0 and re.search(r"[;}]\s*$", code):
                self.items.setdefault(name, []).append("\n".join(text))
                name = None


def is_data_of(path, name):
    """Whether a used name is a constructor."""
    found, _ = file_of(path)
    return bool(found and name and found.suffix == ".antt" and name in source(found).constructors)


@functools.lru_cache(maxsize=None)
def source(path):
    return Source(path)


def file_of(path):
    """The file of a path of names, as `Rattle.crate.specs.File.rest`, and the rest. Of a declared type it is a source."""
    parts = path.split(".")
    if len(parts) < 4 or parts[0] != "Rattle" or not (CRATES / parts[1]).is_dir():
        return None, []
    declared = parts[3] == "declared"
    base = CRATES / parts[1] / ("src" if declared else parts[2])
    rest = parts[4:] if declared else parts[3:]
    for count in range(len(rest), 0, -1):
        found = base.joinpath(*rest[:count]).with_suffix(".rt" if declared else ".antt")
        if found.is_file():
            return found, [each for each in rest[count:] if not each.startswith("The")]
    return None, []


def type_in(crate, name):
    """The file of a crate that has a type."""
    for found in sorted((CRATES / crate / "src").rglob("*.rt")):
        if name in source(found).items:
            return found
    return None


class Reached:
    """What is reached from names: items of files, each with the one by which it is."""

    def __init__(self):
        self.items = {}

    def take(self, path, name, whence):
        if (path, name) in self.items:
            return
        self.items[path, name] = whence
        for text, bound in source(path).clauses(name):
            self.take_text(path, text, bound, (path, name))
        # A file may hand on what it uses.
        if name not in source(path).items:
            for used, handed in source(path).uses.get(name, []):
                self.take_use(path, used, handed, "", (path, name))

    def take_text(self, path, text, bound, whence):
        here = source(path)
        for word in free_in(text, bound):
            if word in here.items and word != whence[1]:
                self.take(path, word, whence)
            for used, name in here.uses.get(word, []):
                self.take_use(path, used, name, text, whence)

    def take_use(self, path, used, name, text, whence):
        found, rest = file_of(used)
        if found is None:
            crate = path.relative_to(CRATES).parts[0] if used.startswith("crate") else used.split(".")[0]
            if path.suffix == ".rt" and (CRATES / crate).is_dir():
                found, rest = type_in(crate, name or used.rpartition(".")[2]), []
            if found is None:
                return
        names = rest or ([name] if name else re.findall(rf"\b{re.escape(used.rpartition('.')[2])}\.(\w+)", text))
        if name is None:
            alias = [each for each, at in source(path).uses.items() if (used, None) in at]
            names = [each for one in alias for each in re.findall(rf"\b{re.escape(one)}\.(\w+)", text)] or names
        for each in names:
            for sign in names_of(each):
                self.take(found, sign, whence)


@functools.lru_cache(maxsize=None)
def reach():
    reached = Reached()
    run = RUN.read_text(encoding="utf-8")
    begin = run.index("pub fn run_card")
    reached.take_text(RUN, run[begin:run.index("\n{", begin)], set(), (RUN, "run_card"))
    return reached


def needed_files(reached):
    return {path for path, _ in reached.items if path.suffix == ".antt" and "specs" in path.parts}


def shown(path):
    return str(path.relative_to(ROOT))


def section(page, title):
    """The lines of a section of the page, without its title."""
    begin = page.index(f"\n## {title}\n")
    end = page.find("\n## ", begin + 1)
    return page[begin:end].splitlines()[2:]


def part_of(text, title):
    """The lines of a part of a crate's page, without its title; none where it has no such part."""
    return section(text + "\n## ", title) if f"\n## {title}\n" in text else []


def pages_of_crates():
    """The page of each crate that has one."""
    return {path.parent.name: path.read_text(encoding="utf-8") for path in sorted(CRATES.glob("*/README.md"))}


def listed_files(page):
    """The files of the list in reading order, and of those of the crates, each with whether it is marked; and what of them tells no file."""
    found, odd, crates = {}, [], []
    lines = section(page, "The definitions, in reading order")
    for crate, text in pages_of_crates().items():
        lines += [f"**`crates/{crate}/specs`**", *part_of(text, "Definitions")]
    entries = re.sub(r"\n  +", " ", "\n".join(lines)).splitlines()
    for entry in entries:
        if entry.startswith("**"):
            crates = re.findall(r"`crates/(\w+)/specs`", entry)
        if not entry.startswith("- "):
            continue
        # A crate in brackets is that of the names in front of it.
        for names, crate in re.findall(r"((?:`\w+\.antt`(?: \*)?(?:, | and |; |: )?)+)(?:\(`(\w+)`\))?", entry):
            for name, mark in re.findall(r"`(\w+\.antt)`( \*)?", names):
                paths = [CRATES / each / "specs" / name for each in ([crate] if crate in crates else crates)]
                paths = [path for path in paths if path.is_file()]
                if len(paths) != 1:
                    odd.append(f"`{name}` in `{entry[:60]}..`: {'no such file' if not paths else 'say of which crate'}")
                elif paths[0] in found:
                    odd.append(f"`{name}` in `{entry[:60]}..`: it is listed twice")
                else:
                    found[paths[0]] = bool(mark)
    return found, odd


def first_note(path):
    return path.read_text(encoding="utf-8").splitlines()[0].lstrip("- ")


def differences_of_list(page):
    listed, odd = listed_files(page)
    needed = needed_files(reach())
    every = {path for path in CRATES.glob("*/specs/**/*.antt") if path.name != "Lib.antt"}
    yield from odd
    for path in sorted(every):
        if path not in listed:
            mark = " *" if path in needed else ""
            yield f"add a line for {shown(path)}: `{path.name}`{mark}: {first_note(path)}"
        elif path in needed and not listed[path]:
            yield f"mark {shown(path)} with *: the clauses of `run_card` speak of it"
        elif path not in needed and listed[path]:
            yield f"take the * from {shown(path)}: no clause of `run_card` speaks of it"


CLAUSE = re.compile(r"\s*(?:ensures|requires) (\w+) \{")
FUNCTION = re.compile(r"\s*(?:pub(?:\(crate\))? )?(?:final )?(?:const )?fn (\w+)")


def functions():
    """The clauses of each function, and the fields of the records that they name, for each place where one of its name stands."""
    found = {}
    for path in sorted(CRATES.glob("*/src/**/*.rt")):
        if path.name == "tests.rt" or "tests" in path.parts:
            continue
        name, crate, ensures = None, path.relative_to(CRATES).parts[0], False
        for line in path.read_text(encoding="utf-8").splitlines():
            begins, clause = FUNCTION.match(line), CLAUSE.match(line)
            ensures = line.lstrip().startswith("ensures ") or (ensures and not clause and line.lstrip() != "{")
            if begins:
                name = begins[1]
                found.setdefault(name, []).append((crate, set()))
            elif clause and name:
                found[name][-1][1].add(clause[1])
            if name and ensures:
                for word in set(re.findall(r"\w+", line)):
                    found[name][-1][1].update(fields_of(path, word))
    return found


def fields_of(path, word):
    """The fields of the record that a file of a crate's source names so, one of the crate or one that the file uses; none where that is no record."""
    of_crate = records(tuple(sorted((CRATES / path.relative_to(CRATES).parts[0] / "specs").rglob("*.antt"))))
    if word in of_crate:
        return of_crate[word]
    for used, name in source(path).uses.get(word, []):
        of, _ = file_of(used)
        if of and of.suffix == ".antt":
            return records((of,)).get(name or word, [])
    return []


@functools.lru_cache(maxsize=None)
def records(paths):
    """The fields of each record of definitions, also of one that stands in a module of theirs: what a clause says that names it."""
    texts = "\n".join(path.read_text(encoding="utf-8") for path in paths)
    return {
        name: re.findall(rf"^{indent}  pub (\w+) :", fields, re.M)
        for indent, name, fields in re.findall(r"^( *)pub record (\w+)\b.*? where\n((?:\1  .*\n)+)", texts + "\n", re.M)
    }


def names_in(text):
    return re.findall(r"`([\w:]+)`", text)


@functools.lru_cache(maxsize=None)
def fields_of_clauses():
    """The names that stand in the records by which the clauses of `run_card` speak."""
    return {
        field
        for path, name in reach().items
        if path.parent == CRATES / "card_run" / "specs"
        for text in source(path).items.get(name, ())
        for field in re.findall(r"^  pub (\w+) :", text, re.M)
    }


def differences_of_table(page):
    """The table of the clauses of `run_card` has each of them, and no other."""
    table = [line for line in section(page, "`run_card`, clause by clause") if line.startswith("| ")]
    told = [name for line in table if line.split(" | ")[0] != "| clause" for name in names_in(line.split(" | ")[0])]
    run = RUN.read_text(encoding="utf-8")
    clauses = re.findall(r"^ *ensures (\w+) \{", run, re.M)
    for name in clauses:
        if name not in told:
            yield f"add a line to the table of the clauses of `run_card`: `{name}`"
    for name in told:
        if name not in clauses and name not in fields_of_clauses():
            yield f"take the line `{name}` out of the table of the clauses of `run_card`, which has none of that name"


def differences_of_names(where, text, known):
    """Where a text names a function and then clauses, that function has them, or the records by which its own speak."""
    text = re.sub(r"\n *", " ", text)
    pairs = re.findall(r"`([\w:]+)`, clauses? ((?:`\w+`(?:, | and )?)+)", text)
    pairs += re.findall(r"\(`(\w*::\w+|run_card)`, ((?:`[a-z_]+`(?:, )?)+)[);]", text)
    for function, names in pairs:
        places = known.get(function.rpartition(":")[2], [])
        for name in names_in(names):
            if function == "run_card" and name in fields_of_clauses():
                continue
            if name not in known and not any(name in clauses for _, clauses in places):
                yield f"{where}: `{function}` has no clause `{name}`"


def differences_of_crate(crate, text, known):
    """What stands in brackets behind the functions of a crate are clauses, functions or definitions of it."""
    have = {name for places in known.values() for each, clauses in places if each == crate for name in clauses}
    have |= {name for name, places in known.items() if any(each == crate for each, _ in places)}
    for path in (path for each in [crate, "scql_model"] for path in (CRATES / each / "specs").rglob("*.antt")):
        have |= set(re.findall(r"^(?:  pub|(?:abbrev|unfoldable) pub) (\w+) :", path.read_text(encoding="utf-8"), re.M))
    have |= {ghost for path in (CRATES / crate / "src").rglob("*.rt") for ghost in re.findall(r"ghost (\w+)", path.read_text(encoding="utf-8"))}
    promises = re.sub(r"\n *", " ", "\n".join(part_of(text, "Promises")))
    for group in re.findall(r"\(((?:(?:clause )?`[a-z_]+`(?:, | and )?)+)\)", promises):
        for name in names_in(group):
            if name not in have:
                yield f"crates/{crate}/README.md: there is no clause `{name}`"


def differences():
    page = PAGE.read_text(encoding="utf-8")
    known = functions()
    yield from differences_of_list(page)
    yield from differences_of_table(page)
    for path in [ROOT / "README.md", *sorted((ROOT / "docs").glob("*.md")), *sorted(CRATES.glob("*/README.md"))]:
        yield from differences_of_names(shown(path), path.read_text(encoding="utf-8"), known)
    for crate, text in pages_of_crates().items():
        yield from differences_of_crate(crate, text, known)


def main(words):
    if words == ["needed"]:
        for path in sorted(needed_files(reach())):
            print(shown(path))
    elif words[:1] == ["why"]:
        for (path, name), (whence, by) in reach().items.items():
            if path.name in words[1:]:
                print(f"{shown(path)}, {name}: by {by} in {shown(whence)}")
    else:
        for each in dict.fromkeys(differences()):
            print(each)


if __name__ == "__main__":
    main(sys.argv[1:])
