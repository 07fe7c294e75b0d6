"""What pages are made of: the crates, their definitions, and their public calls with clauses."""
import re
from functools import lru_cache
from pathlib import Path
from typing import NamedTuple

TOP = Path(__file__).resolve().parent.parent
DEFINITION = re.compile(r"(?:  )?(?:abbrev|unfoldable|pub record|pub data)(?: pub)? (?!mutual)(\S+)")
TOGETHER = re.compile(r"  pub (?:data )?(\S+) :")
CALL = re.compile(r"( *)(?:pub )?(?:final )?(?:const )?fn (\w+)")
OWNER = re.compile(r"(pub trait|impl)\b(.*)")
CLAUSE = re.compile(r"(ensures|requires)\*?(?: (\w+))? \{(.*)")
USE = re.compile(r"^ *ghost use Rattle\.(\w+)\.specs\.([\w.]+)\.\{(.*)\};")


class Definition(NamedTuple):
    """Names that share a comment, and the comment."""
    names: list
    comment: str


class Call(NamedTuple):
    """A public function: its crate, its file, the type or trait that it belongs to, and what it says."""
    crate: str
    path: Path
    owner: str
    name: str
    comment: str
    head: str
    clauses: list  # of (kind, name, text)


@lru_cache
def lines_of(path):
    return path.read_text().splitlines()


@lru_cache
def layers():
    """The crates, the lowest first."""
    return [line.split(":")[0] for line in lines_of(TOP / "crates.txt") if line and not line.startswith("#")]


def comment_above(lines, at, mark):
    """The lines of a comment that end just above a place, or above the attributes there, as one."""
    while at > 0 and lines[at - 1].lstrip().startswith("#["):
        at -= 1
    first = at
    while first > 0 and lines[first - 1].lstrip().startswith(mark):
        first -= 1
    return " ".join(line.lstrip()[len(mark):].strip() for line in lines[first:at])


def spec_files(crate):
    """The files of a crate's definitions, each behind those that it uses."""
    files = {path.stem: path for path in sorted((TOP / "crates" / crate / "specs").glob("*.antt")) if path.stem != "Lib"}
    done = []

    def visit(name):
        if name not in files:
            return
        path = files.pop(name)
        for used in re.findall(rf"^use Rattle\.{crate}\.specs\.(\w+)", path.read_text(), re.M):
            visit(used)
        done.append(path)

    for name in list(files):
        visit(name)
    return done


def definitions(path):
    """The definitions of a file; names below one comment stand together."""
    lines, rows, together = lines_of(path), [], None
    for at, line in enumerate(lines):
        if line[:1].strip():
            together = comment_above(lines, at, "--") if line.endswith(" mutual") else None
        found = DEFINITION.match(line) or together is not None and TOGETHER.match(line)
        if found:
            above, together = comment_above(lines, at, "--") or together, together and ""
            if above or not rows or together is None and lines[at - 1]:
                rows.append(Definition([found[1]], above or ""))
            else:
                rows[-1].names.append(found[1])
    return rows


def public_modules(path):
    """The modules that a file opens to all, and those that they open."""
    found = set(re.findall(r"^pub mod (\w+);", path.read_text(), re.M)) if path.exists() else set()
    inside = [path.with_name(f"{name}.rt") if path.name == "lib.rt" else path.with_suffix("") / f"{name}.rt" for name in sorted(found)]
    return found.union(*map(public_modules, inside))


def exported(crate):
    """What a crate hands on: names of its own, and of modules whose public functions all are."""
    lib = TOP / "crates" / crate / "src" / "lib.rt"  # a program has none
    text = re.sub(r"//.*", "", lib.read_text()) if lib.exists() else ""
    some = re.findall(r"^pub use (?:\w+::)+(\w+|\{.*?\});", text, re.M | re.S)
    return {name for one in some for name in re.findall(r"\w+", one)}, public_modules(lib)


def clauses_between(lines, first, last):
    """The clauses that stand between two lines, each as one text."""
    found, text = [], []
    for line in lines[first:last]:
        bare = line.strip()
        start = CLAUSE.match(bare)
        if start:
            found.append([start[1], start[2] or "", bare])
        elif bare and not bare.startswith("//") and found:
            found[-1][2] += " " + bare
    return [tuple(one) for one in found]


def owner_in(head):
    """The type or trait of a head behind `impl` or `pub trait`."""
    depth, bare = 0, ""
    for at, sign in enumerate(head):
        depth += (sign == "<") - (sign == ">" and head[at - 1] != "-")
        bare += sign if depth == 0 and sign != ">" else ""
    return re.search(r"\w+", bare.split(" for ")[-1])[0]


def calls(crate):
    """The public calls of a crate, in the order of its files and of their lines."""
    names, modules = exported(crate)
    for path in sorted((TOP / "crates" / crate / "src").rglob("*.rt")):
        owner, in_trait = "", False
        lines = lines_of(path)
        for at, line in enumerate(lines):
            if line[:1].strip() and not line.startswith(("//", "#", ")", "}")):
                begins = OWNER.match(line)
                if begins:
                    owner, in_trait = owner_in(begins[2]), begins[1] == "pub trait"
                else:
                    owner = ""
            found = CALL.match(line)
            if not found or not (line.lstrip().startswith("pub ") or in_trait and owner):
                continue
            if found[1] == "" and not (found[2] in names or path.stem in modules):
                continue
            if found[1] != "" and owner not in names:
                continue
            end = at
            while not (lines[end].startswith(found[1] + "{") or lines[end].rstrip().endswith("{") and not CLAUSE.match(lines[end].strip()) or lines[end].rstrip().endswith(";")):
                end += 1
            first = at
            while first <= end and not CLAUSE.match(lines[first].strip()):
                first += 1
            head = " ".join(part.strip() for part in lines[at:first] if not part.lstrip().startswith("//")).split(" where ")[0]
            yield Call(crate, path, owner, found[2], comment_above(lines, at, "///"), head, clauses_between(lines, at, end if lines[end].lstrip().startswith("{") else end + 1))


def is_law(call):
    """A public function that is given nothing, gives nothing and does nothing."""
    return not call.owner and bool(re.match(rf"pub fn {call.name}(?:<.*>)?\(\)(?: \{{\}})?$", call.head)) and bool(call.clauses)


@lru_cache
def uses(path):
    """The names of definitions that a file of code uses: (crate, file of specs) of each."""
    found = {}
    for line in lines_of(path):
        use = USE.match(line)
        if use:
            for name in use[3].split(","):
                parts = name.strip().split(" as ")
                found[parts[-1].strip()] = (use[1], use[2], parts[0].strip())
    return found


def named_in(path, texts):
    """The definitions that texts of a file name, as (crate, name)."""
    used = uses(path)
    return {(used[word][0], used[word][2]) for text in texts for word in re.findall(r"[^\s(){};.,]+", text) if word in used}


SPEC_USE = re.compile(r"^ *(?:pub )?use Rattle\.(\w+)\.specs\.([\w.]+)\.\{(.*)\}")


@lru_cache
def rests_on(crate):
    """For each name that a crate defines, the definitions that its lines name."""
    found = {}
    for path in spec_files(crate):
        lines = lines_of(path)
        known = {name: (crate, name) for one in definitions(path) for name in one.names}
        for line in lines:
            use = SPEC_USE.match(line)
            for name in use[3].split(",") if use else []:
                parts = name.strip().split(" as ")
                known[parts[-1].strip()] = (use[1], parts[0].strip())
        here = None
        for line in lines:
            begins = DEFINITION.match(line) or TOGETHER.match(line)
            if begins and begins[1] in known:
                here = begins[1]
            if line.startswith(("--", "use ")) or here is None:
                continue
            found.setdefault((crate, here), set()).update(known[word] for word in re.findall(r"[^\s(){};.,]+", line) if word in known)
    return found
