"""All that tools/audit looks at, in one copy of the repository."""
from dataclasses import dataclass, field

from .calls import conversions, public_calls
from .code import Code
from .contracts import cited, contract_of, relations_exist
from .definitions import Definitions
from .documents import names_exist, no_machine, sections_exist, tried_exist
from .edits import edits_of, stays_in, touched
from .interface import interface_is_one
from .merge_shapes import judged_by
from .reach import Reach
from .refusals import refusals_agree
from .repository import TESTED, Report, Repository
from .statements import statements_stand
from .table import DOCUMENT, hold_edits, hold_table, lists_below, row_of, stated_of, wrong_answers
from .theorems import hold_theorems, theorems_of
from .whole import all_is_checked, proofs_are_whole

LEAST = 2  # wrong answers for each call


@dataclass
class Seen:
    report: Report
    calls: list
    code: Code
    definitions: Definitions
    reach: Reach
    contracts: dict = field(default_factory=dict)
    rows: dict = field(default_factory=dict)
    below: str = ""
    tried: dict = field(default_factory=dict)  # call -> the edits that it rests on, the nearest first
    edits: dict = field(default_factory=dict)


def look(root):
    """Looks at everything; what is missing is in the report."""
    repository, report = Repository(root), Report()
    code = Code(repository)
    definitions = Definitions(repository, code)
    reach = Reach(code, definitions)
    seen = Seen(report, public_calls(code, report), code, definitions, reach, edits=edits_of(repository))
    relations_exist(definitions, report)
    statements_stand(definitions, report)
    changed = {name: touched(repository, code, definitions, edit) for name, edit in seen.edits.items()}
    promised = theorems_of(definitions)
    for call in seen.calls:
        contract = seen.contracts[call.name] = contract_of(call, definitions, reach, report)
        theorems = hold_theorems(call, contract, promised, definitions, reach, code, report)
        named = cited(contract)
        seen.tried[call.name] = tried = wrong_answers(call, named, reach, seen.edits, changed)
        report.hold(len(tried) >= LEAST, f"{call.name}: fewer than two edits touch something that it rests on")
        file = theorems.get("one", "proofs/none").split("/")[1]
        seen.rows[call.name] = row_of(call, named, f"{file}.one_{call.short}", tried)
    judged_by(seen.contracts, report)
    aside = {
        name for name, edit in seen.edits.items() if edit.crate in TESTED
        and any(stays_in(repository, edit, *body) for body in code.answering_bodies(edit.crate))
    }
    for conversion in conversions(code):
        wrong = {name for name, edit in seen.edits.items() if stays_in(repository, edit, conversion.path, conversion.start, conversion.end)}
        report.hold(wrong, f"{conversion.path}: no edit is a wrong answer of {conversion.name}")
        aside |= wrong
    for name in sorted(set(seen.edits) - set().union(*seen.tried.values()) - aside):
        stated = stated_of(seen.edits[name], changed[name], definitions, reach)
        report.hold(stated, f"the edit {seen.edits[name].path} touches nothing that a call or a theorem rests on")
    seen.below = lists_below(repository.text(DOCUMENT), seen.tried, seen.edits, aside)
    hold_table(repository, seen.rows, seen.below, report)
    hold_edits(repository, report)
    interface_is_one(repository, report)
    refusals_agree(repository, report)
    all_is_checked(repository, report)
    proofs_are_whole(repository, report)
    names_exist(repository, report)
    tried_exist(repository, report)
    sections_exist(repository, report)
    no_machine(repository, report)
    return seen
