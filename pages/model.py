"""The page of the model: what a reader has to believe, in the order of the layers.

A definition has a row where it is reached from a clause of the top calls, step by step, and is a fact, a type, a limit, or named by
a clause of some public call; or where a law that speaks of all cases names it. The others compute what these say, and stand in
the files that the rows name. A law is a public function that is given nothing and does nothing. Its comment stands here, and
its clauses as they are where they speak of all cases, or what the fact says that a clause is; a law whose clauses are cases
worked by hand has its comment alone.
"""
import re
from textwrap import dedent

from sources import TOP, calls, definitions, is_law, layers, lines_of, named_in, rests_on, spec_files, uses

HEAD = """# The model

Made by `./made-pages` of the comments above definitions and laws, and not to be changed by hand. It has what a reader has to
believe, in the order of the layers; how the parts hang together stands in [ARCHITECTURE.md](ARCHITECTURE.md), and the words in
[VOCABULARY.md](VOCABULARY.md).

A **definition** stands in a row: its name, its file in `specs/` of the crate, and what it means. A definition that computes
something has a small letter, a fact has a capital, and so has a type. Of {all} definitions {shown} have a row: of those that are
reached step by step from the clauses of the top calls (`aplsv_top`) the facts, the types, the limits (`most_..`) and what a clause of a
public call names; and what a law names that speaks of all cases. The others are steps in what these say, and stand beside them,
each below a comment. Numbers are natural numbers unless they are items of arrays, which are integers of 64 bits.

A **law** is a public function that is given nothing and does nothing, and whose clauses are proved as those of any function: {laws}
speak of all cases, and stand here as they are written, or as the facts that their clauses are; {worked} are cases worked by hand, of which the
comment stands here and the clauses in `src/`.
"""


def is_of_all_cases(clause):
    """Whether a clause speaks of all cases as it stands, and not of one that was worked by hand: of all values of some type."""
    return bool(re.search(r"[({][\w ]+ : .*→", re.sub(r'"[^"]*"', "", clause[2])))


def facts_of(law, clause):
    """The facts that a clause is, as crate, file and name of each: it stands alone, or behind it types, facts, or what any devices are."""
    alone = re.match(r"ensures(?: \w+)? \{ ([A-Z]\w*(?: [A-Z]\w*(?:\.\w+)?)*) \}$", clause[2])
    named = [uses(law.path).get(word) for word in alone[1].split(" ")] if alone and not is_of_all_cases(clause) else []
    return [fact for fact in named if fact and statement_of(fact)]


def is_general(law):
    return any(is_of_all_cases(clause) or facts_of(law, clause) for clause in law.clauses)


def is_fact_or_limit(name):
    """Facts and types have a capital, and limits are the most of something."""
    return name[:1].isupper() or name.startswith("most_")


def commented():
    """The comment of each definition, by its crate and name."""
    return {(crate, name): row.comment for crate in layers() for path in spec_files(crate) for row in definitions(path) for name in row.names}


def reached(begun, known):
    """The definitions that some rest on, step by step, and these."""
    rests = {name: below for crate in layers() for name, below in rests_on(crate).items()}
    found = {name for name in begun if name in known}
    left = list(found)
    while left:
        for below in rests.get(left.pop(), ()):
            if below in known and below not in found:
                found.add(below)
                left.append(below)
    return found


def named_by(some):
    """What the clauses of some calls name."""
    return {name for call in some for name in named_in(call.path, [clause[2] for clause in call.clauses])}


def named_by_law(law):
    """What a law names that speaks of all cases: in its clauses, and in the facts that they are."""
    found = named_in(law.path, [clause[2] for clause in law.clauses if is_of_all_cases(clause)])
    for clause in law.clauses:
        for crate, _, name in facts_of(law, clause):
            found |= rests_on(crate).get((crate, name), set()) - {(crate, name)}
    return found


def believed(all_calls, known):
    """The definitions that have a row."""
    laws = [call for call in all_calls if is_law(call)]
    others = [call for call in all_calls if not is_law(call)]
    below = reached(named_by(call for call in others if call.crate == "aplsv_top"), known)
    named = named_by(others)
    by_laws = {name for law in laws for name in named_by_law(law) if name in known}
    return {name for name in below if is_fact_or_limit(name[1]) or name in named} | by_laws


def statement_of(fact):
    """What a fact says, as it is defined by an equation; nothing where it is a type."""
    crate, file, name = fact
    lines = lines_of(TOP / "crates" / crate / "specs" / f"{file}.antt")
    at = next((row for row, line in enumerate(lines) if re.match(rf" *{name}\b[^:]*=(?: |$)", line)), len(lines))
    end = next((row for row in range(at, len(lines)) if not lines[row].strip()), len(lines))
    return dedent("\n".join(lines[at:end])).splitlines()


def law_statement(law):
    """What a law says of all cases, as it is written: its clauses, or the facts that these are."""
    lines = lines_of(law.path)
    at = next(row for row, line in enumerate(lines) if re.match(rf"pub fn {law.name}\b", line)) + 1
    end = next(row for row in range(at, len(lines)) if lines[row].startswith("{"))
    starts = [row for row in range(at, end) if lines[row].startswith("    ensures")]
    shown = []
    for clause, first, last in zip(law.clauses, starts, starts[1:] + [end]):
        facts = facts_of(law, clause)
        if len(facts) > 1 or is_of_all_cases(clause):
            shown += [line.removeprefix("    ") for line in lines[first:last] if line.strip() and not line.lstrip().startswith("//")]
        for fact in facts:
            said = statement_of(fact)
            shown += said if said[0] not in shown else []
    return shown


def told(comment):
    return comment.replace("The call does nothing.", "").strip()


def section(crate, rows, laws):
    shown = []
    for path in spec_files(crate):
        for row in definitions(path):
            names = [name for name in row.names if (crate, name) in rows]
            if names:
                shown.append("| {} | {} | {} |".format(", ".join(f"`{name}`" for name in names), path.stem, row.comment.replace("|", "\\|")))
    if shown:
        shown = ["| name | file | meaning |", "|---|---|---|", *shown, ""]
    worked = []
    for law in laws:
        if is_general(law):
            shown += [f"**`{law.name}`**: {told(law.comment)}", "", "```", *law_statement(law), "```", ""]
        else:
            worked.append(f"- `{law.name}`: {told(law.comment)}")
    if worked:
        shown += ["Worked by hand:", "", *worked, ""]
    return [f"## `{crate}`", "", *shown] if shown else []


def page():
    known = commented()
    all_calls = [call for crate in layers() for call in calls(crate)]
    rows = believed(all_calls, known)
    laws = [call for call in all_calls if is_law(call)]
    general = sum(map(is_general, laws))
    head = HEAD.format(all=f"{len(known):,}", shown=len(rows), laws=general, worked=len(laws) - general)
    parts = [section(crate, rows, [law for law in laws if law.crate == crate]) for crate in layers()]
    return head + "\n" + "\n".join(line for part in parts for line in part).rstrip("\n") + "\n"


def bare():
    """Definitions and laws that no comment stands above."""
    found = [f"{crate}: {name}" for (crate, name), comment in commented().items() if not comment]
    return found + [f"{call.crate}: {call.name}" for crate in layers() for call in calls(crate) if is_law(call) and not call.comment]
