"""Every contract and every theorem of the public calls, weakened in each of some ways: all of it must be noticed."""
from dataclasses import replace

from . import terms
from .contracts import contract_of
from .owed import KINDS
from .repository import Report
from .shapes import AGREEMENTS, Shapes, length
from .statement import Wrong, statement_of
from .terms import arguments, head, parts, sides
from .theorems import theorems_of

NOTHING = ("op", "≡", ("var", "0"), ("var", "0"))
NEVER = ("op", "≡", ("var", "0"), ("var", "1"))


def weaker_contracts(call):
    """Each (what is done, the call with a clause weakened)."""
    for k, (answer, text) in enumerate(call.clauses):
        left, sign, right = text.partition(" ≡ ")
        for what, clause in [
            ("nothing is said", None),
            ("it is true of all", f"{answer} ≡ {answer}"),
            ("it is behind a premise", f"0 ≡ 1 → {text}"),
            ("it is one of two", f"({text}) × (0 ≡ 0)"),
            ("a part of it is told", f"part ({left}) ≡ part ({right})" if sign else text.replace(f" {answer}", f" (part {answer})", 1)),
            ("it is composed", f"{left} ≡ part ({right})" if sign else f"Part ({text})"),
        ]:
            held = list(call.clauses)
            held[k : k + 1] = [] if clause is None else [(answer, clause)]
            yield what, replace(call, clauses=tuple(held))
        yield "it is said twice", replace(call, clauses=call.clauses + call.clauses[k : k + 1])


def weaker_statements(statement):
    """Each (what is done, the statement so weakened)."""
    yield "its conclusion is empty", replace(statement, conclusion=NOTHING)
    yield "a premise can't hold", replace(statement, premises=statement.premises + [NEVER])
    yield "a variable has no value", replace(statement, variables=statement.variables + ["never"])
    for k, premise in enumerate(statement.premises):
        if head(premise) is not None and head(premise)[1] in AGREEMENTS and head(premise)[2] != "Agree":
            as_many = ("op", "≡", *(length(list_) for list_ in arguments(premise)[:2]))
            yield "as many bytes are asked for", replace(statement, premises=statement.premises[:k] + [as_many] + statement.premises[k + 1 :])
    said = parts(statement.conclusion)
    for k, part in enumerate(said):
        pair = sides(part)
        for what, side in [("left", 0), ("right", 1)] if pair else []:
            same = said[:k] + [("op", "≡", pair[side], pair[side])] + said[k + 1 :]
            yield f"its equation {k + 1} has its {what} side twice", replace(statement, conclusion=product(same))
        if len(said) > 1:
            yield f"its equation {k + 1} is left out", replace(statement, conclusion=product(said[:k] + said[k + 1 :]))
    inner = arguments(statement.conclusion)
    if inner and inner[0][0] == "fun":
        for k in range(len(parts(inner[0][2]))):
            held = parts(inner[0][2])
            held[k] = ("op", "≡", ("var", inner[0][1][0]), ("var", inner[0][1][0]))
            said = ("fun", inner[0][1], product(held))
            yield f"its clause {k + 1} says nothing", replace(statement, conclusion=("app", statement.conclusion[1], (said, *inner[1:])))
    if len(inner) > 1:
        yield "its last argument is the one before", replace(statement, conclusion=("app", statement.conclusion[1], (*inner[:-1], inner[-2])))


def product(trees):
    return trees[0] if len(trees) == 1 else ("op", "×", trees[0], product(trees[1:]))


def is_wrong(shapes, kind, statement):
    try:
        getattr(shapes, kind)(statement)
        return False
    except (Wrong, terms.Unread, IndexError, StopIteration, TypeError, ValueError):
        return True


def contracts_weakened(seen):
    """(how many were tried, those that were not noticed)."""
    tried, missed = 0, []
    for call in seen.calls:
        for what, weaker in weaker_contracts(call):
            tried += 1
            report = Report()
            contract_of(weaker, seen.definitions, seen.reach, report)
            if not report.faults:
                missed.append(f"{call.name}: {what}")
    return tried, missed


def theorems_weakened(seen):
    """(how many were tried, those that were not noticed)."""
    tried, missed, named = 0, [], theorems_of(seen.definitions)
    for call in seen.calls:
        shapes = Shapes(call, seen.contracts[call.name], seen.definitions, seen.reach, seen.code)
        for kind in [k for k, owed in KINDS.items() if owed(call)]:
            name = f"{kind}_{call.short}"
            for file in named[name]:
                statement = statement_of(seen.definitions, "promises", file, seen.definitions.declaration(("promises", file, name)))
                for what, weaker in weaker_statements(statement):
                    tried += 1
                    if not is_wrong(shapes, kind, weaker):
                        missed.append(f"{name}: {what}")
    return tried, missed
