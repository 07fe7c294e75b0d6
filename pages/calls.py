"""The page of calls: of each public call of the crates below, by which clause it returns, is refused, and lacks memory.

It is read off the head of a call and off what its clauses speak of. A call that is given something that may wait may wait; every
other function of the language ends. A refusal is a variant of the error that a call answers with, or of the status that it
returns; a clause speaks of it where it names the variant, looks at errors, or is a fact about the whole answer. A clause speaks
of want of memory in the same way, and of what is left where it speaks of what stands behind the call and holds of errors too.
"""
import re
from functools import lru_cache

from sources import TOP, calls, is_law, layers, lines_of

HEAD = """# Calls: that they return, what they refuse, and want of memory

Made by `./made-pages` of the heads and clauses of public calls, and not to be changed by hand. It has the crates that somebody meets
who uses the libraries, the lowest first. A name in a cell is the name of a clause of the call; *its clause* is one without a name.

- **Returns.** Every function of the language is proved to end, by its kind: a loop or a recursion has a measure that falls. A call may
  wait for ever where it is given something that may wait (`Wait`), and no clause says then that it returns.
- **Refusals.** The variants of the answer, but for want of memory, and the clauses that speak of them. A call whose answer has none
  refuses nothing.
- **Want of memory.** *None* is taken where no answer is `WantOfMemory`, so that the call succeeds without it. Where it may be answered the clauses
  stand that speak of what is left; *lent* says that the call only looks at what it is given, so that nothing can have changed; *taken* that
  what it was given is gone, and that nothing else changed. *Granted* names the clause that says when memory is not wanted.
- **MISSING** stands where a variant has no clause, or nothing is said of what is left.

A call that always returns, refuses nothing and takes no memory has no row, and is named behind *Always* below its crate's table: its
success is promised without a condition but those of its `requires`.
"""
INNER = {"apl_verbs", "apl_items", "operator_rules", "aux_parties", "apl_values", "apl_statements", "apl_subscripts", "apl_calls", "apl_answers",
         "apl_acts", "apl_meaning", "apl_terminal", "sv_rules", "sv_offer_laws", "sv_story_laws", "sv_delivery_laws", "sv_cell_laws", "sv_plain",
         "session_rules", "replay_rules", "party_turns", "journal_laws", "aplsv", "aplsv_rows"}
ANSWERS = {"Finish": ("Status", "result.status"), "FinishedRun": ("Ended", "result.ended"), "RunOf": ("Ended", "result.ended"), "Status": ("Status", "result"),
           "LookStatus": ("LookStatus", "result")}
MEMORY = "WantOfMemory"


@lru_cache
def variants():
    """The variants of each public enum, by its crate and its name; where no other has the name, by that alone too."""
    found = {}
    for crate in layers():
        for path in sorted((TOP / "crates" / crate / "src").rglob("*.rt")):
            for name, body in re.findall(r"^pub enum (\w+)(?:<[^{]*>)? \{\n(.*?)^\}", path.read_text(), re.M | re.S):
                found[crate, name] = found.setdefault(name, re.findall(r"^    (\w+)", body, re.M))
    return found


@lru_cache
def copied():
    """Types whose values are copied, and so are never handed over."""
    found = {"u8", "u16", "u32", "u64", "usize", "i64", "bool", "Global", "Self"}
    for crate in layers():
        for path in sorted((TOP / "crates" / crate / "src").rglob("*.rt")):
            found |= set(re.findall(r"^#\[derive\([^)]*\bCopy\b[^)]*\)\]\n(?:#.*\n)*pub (?:enum|struct) (\w+)", path.read_text(), re.M))
    return found


def answer_of(head):
    """What a call answers with: the text behind its last arrow outside of its arguments."""
    found = re.search(r"\) -> (.*?)(?: \{.*)?;?$", head)
    return found[1].strip() if found else ""


def outcomes(call):
    """The variants of what a call answers, and by what its clauses speak of them, where it may refuse or run out."""
    answer = answer_of(call.head)
    error = re.match(r"Result<.*, (\w+)>$", answer)
    if error:
        return variants().get((call.crate, error[1])) or variants().get(error[1]) or [error[1]], None
    kind = re.match(r"\w+", answer)
    if kind and kind[0] in ANSWERS:
        enum, field = ANSWERS[kind[0]]
        return [one for one in variants()[enum] if one not in ("Done", "Whole")], field
    return [], None


def shown_name(clause):
    return f"`{clause[1]}`" if clause[1] else "its clause"


def body_of(clause):
    return clause[2].split("{", 1)[1].strip()


def speaks_of(clause, variant, field, alone):
    """Whether a clause speaks of a variant of the answer, which may be the only one that is refused."""
    body = body_of(clause)
    if field:
        return bool(re.search(rf"(?<!≢ status\.)\b(?:{variant}|HasCause|HasLoadCause|HasCheckCause|HasLookCause)\b", body))
    if re.match(r"(IfOk|OnOk)\b", body):
        return False
    whole = re.match(r"(?!OnErr|IsOk|IsErr)[A-Z]\w*(?: [^ →]+)*? result\b", body)
    return bool(whole or re.search(rf"\b(?:{variant}|IfErr|MatchResult)\b", body) or alone and re.search(r"\b(?:OnErr|IsErr)\b", body))


def changes(call):
    """What a call may change: it is given for that."""
    return re.findall(r"(&(?:'\w+ )?mut \w+|\w+: &(?:'\w+ )?mut )", call.head.split(") ->")[0])


def takes(call):
    """Whether a call takes something over that has memory of its own."""
    arguments = re.search(r"fn \w+(?:<.*?>)?\((.*)\)(?: ->|$|;| \{)", call.head)[1]
    for part in re.split(r",(?![^<(]*[>)])", arguments):
        name, _, kind = part.strip().partition(": ")
        held = re.sub(r"Option<(.*)>", r"\1", kind or name)
        if name in ("self", "mut self") and call.owner not in copied() or kind and not held.startswith(("&", "impl ")) and re.match(r"\w+", held)[0] not in copied():
            return True
    return False


def speaks_of_left(clause):
    """Whether a clause says in the end what stands behind a call, and holds where memory ran out too."""
    body = body_of(clause)
    says = body if re.match(r"OnErr\b", body) else body.split("→")[-1]
    excepts = re.match(r"(IfOk|OnOk|IfWhole)\b", body) or re.search(rf"≢ status\.{MEMORY}\b", body) or clause[1] == "room"
    return not excepts and bool(re.search(r"\.new\b|result\.(?:text|clock|ten|twenty|shelves|devices)\b", says))


def named(clauses):
    return ", ".join(dict.fromkeys(map(shown_name, clauses)))


def refusals_cell(call, found, field):
    ensured = [clause for clause in call.clauses if clause[0] == "ensures"]
    cells = {}
    for variant in found:
        if variant != MEMORY:
            told = named(clause for clause in ensured if speaks_of(clause, variant, field, len(found) == 1)) or "MISSING"
            cells.setdefault(told, []).append(f"`{variant}`")
    return "; ".join(f"{', '.join(names)}: {told}" for told, names in cells.items()) or "none"


def memory_cell(call, found):
    ensured = [clause for clause in call.clauses if clause[0] == "ensures"]
    if MEMORY not in found:
        return "none"
    if any(re.match(r"IsOk result \}", body_of(clause)) for clause in ensured):
        return "granted always: " + named(clause for clause in ensured if re.match(r"IsOk result \}", body_of(clause)))
    granted = [clause for clause in ensured if re.search(r"→ IsOk result\b", body_of(clause))]
    left = [clause for clause in ensured if speaks_of_left(clause) and clause not in granted]
    gives_back = re.match(r"FinishedRun|RunOf", answer_of(call.head))
    if left:
        told = "left: " + named(left)
    elif gives_back:
        told = "MISSING: what came of what is given back"
    elif changes(call):
        told = "MISSING: what is left"
    else:
        told = "taken" if takes(call) else "lent"
    return told + (f"; granted: {named(granted)}" if granted else "")


def section(crate):
    rows, plain = [], []
    for call in calls(crate):
        if is_law(call) or not call.clauses and call.name.endswith("may_cross_threads"):
            continue
        name = f"{call.owner}::{call.name}" if call.owner else call.name
        found, field = outcomes(call)
        waits = bool(re.search(r"\bWait\b", call.head))
        if found or waits:
            rows.append(f"| `{name}` | {'may wait' if waits else 'always'} | {refusals_cell(call, found, field)} | {memory_cell(call, found)} |")
        else:
            plain.append(f"`{name}`")
    if not rows and not plain:
        return []
    table = ["| call | returns | refusals | want of memory |", "|---|---|---|---|", *rows, ""] if rows else []
    return [f"## `{crate}`", "", *table, *([f"Always: {', '.join(plain)}.", ""] if plain else [])]


def page():
    shown = [crate for crate in layers() if crate not in INNER and not crate.startswith("case_") and not crate.endswith("_cases")]
    body = "\n".join(line for crate in shown for line in section(crate)).rstrip("\n") + "\n"
    rows = re.findall(r"^\| (`.*?`) \| (.*?) \|", body, re.M)
    waiting = ", ".join(name for name, returns in rows if returns == "may wait")
    missing = len(re.findall("MISSING", body))
    return HEAD + f"\nThe tables have {len(rows)} calls; {missing} cells say that something is missing. These alone may wait: {waiting}.\n\n" + body
