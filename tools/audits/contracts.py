"""The contract of a public call, held to a shape. It has no `requires` and one `ensures { .. }`, which is one of these:

  result ≡ D A ..          the answer; `result.now ≡ D A ..` where the answer is a slice. Nothing stands in front of the answer.
  R A .. result X ..       a relation of RELATIONS; the answer is an argument of its own, and so are the final contents X of the lent
                           buffers, `B.new`, or several of them side by side in a record made by one of MAKERS

D is one definition of some crate's specs. Each A is what is known at the entry, as it is: a parameter by value, `P.now` of a shared one,
`P.old` of a lent one, or several lists side by side (MAKERS); of a relation also how a walk or a body is asked for, by parameters alone (ASKED). So a contract is one definition
applied to what is handed in, and what comes of it: a theorem that cites the definition says what the contract says, and neither can be
altered without the other. The clause says what is answered and what each `&mut` parameter holds in the end.
"""
from dataclasses import dataclass

from . import terms
from .terms import arguments, head, put, sides, variables

# relations between what is handed in and what comes out; that none is empty is what the `one-` theorems of their calls say
RELATIONS = {
    ("bits", "specs/Decimals", "WritesDecimal"),
    ("bitio", "specs/Copies", "CopiesBits"),
    ("schema", "specs/TwelveLevels", "FillsSchema"),
    ("array", "specs/Calls", "Decodes"),
    ("array", "specs/Calls", "DecodesPairs"),
    ("array", "specs/Calls", "Judges"),
    ("array", "specs/Calls", "Adds"),
    ("fastarray", "specs/Answers", "Answered"),
    ("exports", "specs/WalkResults", "Walks"),
    ("exports", "specs/WalkResults", "WalksPairs"),
    ("exports", "specs/WalkResults", "DecodesBody"),
    ("exports", "specs/Calls", "FillsForC"),
    ("exports", "specs/Calls", "CopiesForC"),
}
# records of several lists side by side: nothing but a name for all of them
MAKERS = {("schema", "specs/Tables", "tables"), ("array", "specs/Calls", "lent"), ("fastarray", "specs/Answers", "lent")}
# how a walk or a body is asked for: a record of the call's parameters, in which a number may stand for a mode (MODES)
ASKED = {("array", "specs/Calls", "struct_call"), ("array", "specs/Calls", "exact_call"), ("fastarray", "specs/Answers", "call")}
MODES = {("exports", "specs/WalkResults", "mode_of")}
ANSWER = ("var", "the answer")
# what `≡` has to mean
EQUAL = ("library", "mathlib.Core.Path", "◌≡◌")


def at_exit(name):
    return f"{name} at the exit"


@dataclass(frozen=True)
class Clause:
    says: frozenset  # "the answer", or the names of buffers
    left: tuple  # what stands left of ≡; none for a relation
    right: tuple  # what stands right of it; the relation applied
    whole: tuple


@dataclass
class Contract:
    call: object
    clause: Clause = None
    told: list = None  # the definitions by which the `refused-` theorem tells a refusal

    @property
    def lent(self):
        return [p.name for p in self.call.parameters if p.lent]


def plain(tree, call):
    """`P.now` of a shared parameter and `P.old` of a lent one as the variable P, `P.new` as the variable of P's contents at the exit, `result.now`
    as the answer. What else is said of such a parameter, and the parameter itself, is no variable that a contract may have."""
    shared = {p.name for p in call.parameters if p.type.startswith("&") and not p.lent}
    lent = {p.name for p in call.parameters if p.lent}

    def of(tree):
        kind = tree[0]
        if kind == "get" and tree[1] == ANSWER and tree[2] == "now":
            return ANSWER
        if kind == "get" and tree[1][0] == "var" and tree[1][1] in shared | lent:
            name = tree[1][1]
            if tree[2] == ("now" if name in shared else "old"):
                return ("var", name)
            return ("var", at_exit(name)) if name in lent and tree[2] == "new" else ("get", ("var", f"{name} itself"), tree[2])
        if kind == "var" and tree[1] in shared | lent:
            return ("var", f"{tree[1]} itself")
        if kind in ("var", "name"):
            return tree
        if kind == "app":
            return ("app", of(tree[1]), tuple(of(t) for t in tree[2]))
        if kind == "get":
            return ("get", of(tree[1]), tree[2])
        if kind == "op":
            return ("op", tree[1], of(tree[2]), of(tree[3]))
        if kind == "fun":
            return ("fun", tree[1], of(tree[2]))
        return ("all", tuple((n, of(t)) for n, t in tree[1]), of(tree[2]))

    return of(tree)


def is_relation(tree):
    name = head(tree)
    return name is not None and name[1] in RELATIONS


def is_maker(tree, of):
    """A record of lists, all of them out of `of`."""
    name = head(tree)
    return name is not None and name[1] in MAKERS and all(a[0] == "var" and a[1] in of for a in arguments(tree))


def is_handed(tree, of):
    """Something of `of`, as it is."""
    return tree[0] == "var" and tree[1] in of or is_maker(tree, of)


def is_asked(tree, of):
    """How a walk or a body is asked for, by things of `of`."""
    name = head(tree)
    if name is None or name[1] not in ASKED:
        return False
    held = [arguments(a)[0] if head(a) is not None and head(a)[1] in MODES and len(arguments(a)) == 1 else a for a in arguments(tree)]
    return all(is_handed(a, of) for a in held)


def is_single(clause, handed, exits):
    """Whether a clause is one definition applied to what is handed in, and to what comes out."""
    name = head(clause.right)
    if name is None or name[1][0] == "library" or not name[1][1].startswith("specs/"):
        return False
    if clause.left is not None:
        return all(is_handed(a, handed) for a in arguments(clause.right))
    return all(a == ANSWER or is_handed(a, handed) or is_handed(a, exits) or is_asked(a, handed) for a in arguments(clause.right))


def contract_of(call, definitions, reach, report):
    """The contract of a call; a fault for each part of it that is not of the shape."""
    crate, module, _ = call.node
    scope = reach.scope(crate, module)
    report.hold("requires" not in call.behind, f"{call.name} has a `requires`")
    left_over = call.behind.split("requires")[0].strip()
    report.hold(not left_over, f"{call.name}: this part of its head is no clause of a known form: {left_over[:60]}")
    report.hold(call.clauses, f"{call.name} has no contract")
    report.hold(len(call.clauses) < 2, f"{call.name} has more than one `ensures`")
    exits = {at_exit(p.name): p.name for p in call.parameters if p.lent}
    found = Contract(call)
    for answer, text in call.clauses:
        try:
            bound = [p.name for p in call.parameters] + [answer]
            tree = terms.read(text, lambda word: definitions.meaning(crate, None, word, scope), bound)
        except terms.Unread as why:
            report.hold(False, f"{call.name}: a clause can't be read ({why}): {text[:60]}")
            continue
        report.hold("≡" not in text or definitions.meaning(crate, None, "◌≡◌", scope) == EQUAL, f"{call.name}: `≡` is not the equation of paths")
        tree = plain(put(tree, {answer: ANSWER}), call)
        clause = shaped(call, tree, exits)
        if report.hold(clause is not None, f"{call.name}: this clause is no equation `result ≡ ..` and no relation: {text[:60]}"):
            single = is_single(clause, {p.name for p in call.parameters}, exits)
            report.hold(single, f"{call.name}: the contract is no single definition applied to what is handed in: {text[:60]}")
            found.clause = clause if len(call.clauses) == 1 else None
    said = found.clause.says if found.clause else ()
    for subject in (["the answer"] if call.returns else []) + list(exits.values()):
        report.hold(subject in said, f"{call.name}: no clause says what is left in `{subject}`" if subject in exits.values() else f"{call.name}: no clause says what it answers")
    return found


def shaped(call, tree, exits):
    """The clause that a proposition is, or none."""
    pair = sides(tree)
    if pair:
        left, right = pair
        if variables(right) & (set(exits) | {ANSWER[1]}):
            return None
        return Clause(frozenset(["the answer"]), left, right, tree) if left == ANSWER else None
    if not is_relation(tree):
        return None
    held = arguments(tree)
    says = set()
    for argument in held:
        if argument == ANSWER:
            says.add("the answer")
        elif argument[0] == "var" and argument[1] in exits:
            says.add(exits[argument[1]])
        elif is_maker(argument, exits):
            says |= {exits[a[1]] for a in arguments(argument)}
        elif variables(argument) & (set(exits) | {ANSWER[1]}):
            return None
    return Clause(frozenset(says), None, tree, tree) if "the answer" in says else None


def relations_exist(definitions, report):
    """Each relation is a definition, and each maker a record of its parameters."""
    for relation in sorted(RELATIONS):
        report.hold(definitions.declaration(relation), f"the relation {'/'.join(relation)} is not defined")
    for maker in sorted(MAKERS):
        declaration = definitions.declaration(maker)
        report.hold(declaration and "= record {" in declaration.text, f"{'/'.join(maker)} is no record of its parameters")


def cited(contract):
    """The definition that a contract is: the relation, or what stands right of ≡; in a list, which is empty where the contract is none."""
    name = head(contract.clause.right) if contract.clause else None
    return [name[1]] if name is not None and name[1][0] != "library" and name[1][1].startswith("specs/") else []
