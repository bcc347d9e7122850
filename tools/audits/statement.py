"""A theorem's statement: its variables, its premises and its conclusion, and what its variables stand for in a call's contract."""
import re
from dataclasses import dataclass

from . import terms
from .contracts import ANSWER, EQUAL, at_exit, is_maker
from .terms import fit, head, parts_as_variables, variables


class Wrong(Exception):
    """Why a statement is not of its shape."""


@dataclass
class Statement:
    variables: list
    premises: list
    conclusion: tuple


def signature(declaration):
    """The type of a declaration, as text."""
    lines = declaration.text.splitlines()
    depth = len(lines[0]) - len(lines[0].lstrip())
    held = [lines[0]]
    for line in lines[1:]:
        if line.strip() and len(line) - len(line.lstrip()) <= depth:
            break
        held.append(line)
    return "\n".join(held).partition(" :")[2]


def statement_of(definitions, crate, file, declaration):
    """The statement of a theorem: the sections' binders, then its own."""
    text = " ".join(declaration.sections + ("→" if any(declaration.sections) else "", signature(declaration)))
    if "≡" in text and definitions.meaning(crate, file, "◌≡◌") != EQUAL:
        raise Wrong("`≡` is not the equation of paths")
    tree = terms.read(text, lambda word: definitions.meaning(crate, file, word))
    held, conclusion = (tree[1], tree[2]) if tree[0] == "all" else ((), tree)
    found = Statement([], [], conclusion)
    for name, kind in held:
        if name is None or kind[0] in ("op", "all") and kind[:2] != ("op", "×") or variables(kind) & set(found.variables):
            found.premises.append(kind)
        else:
            found.variables.append(name)
    found.premises = [parts_as_variables(p, found.variables) for p in found.premises]
    found.conclusion = parts_as_variables(found.conclusion, found.variables)
    return found


class Spoken:
    """A call's contract, and what the statements on it share."""

    def __init__(self, call, contract, definitions, reach, code):
        if contract.clause is None:
            raise Wrong("the contract is not of its own shape")
        self.call, self.contract = call, contract
        self.definitions, self.reach, self.code = definitions, reach, code
        self.handed = {p.name for p in call.parameters}
        self.exits = {at_exit(name) for name in contract.lent}
        self.open = set()

    def may(self, tree):
        """What a variable of a statement may stand for."""
        if tree[0] == "var":
            return tree[1] in self.handed or tree[1] in self.exits or tree == ANSWER
        return is_maker(tree, self.handed) or is_maker(tree, self.exits)

    def fits(self, pattern, tree, found):
        """Whether a part of the statement is that part of the contract; what its variables stand for goes into `found`."""
        tried = dict(found)
        if fit(pattern, tree, self.open, tried, self.may):
            found.update(tried)
            return True
        return False

    def opened(self, statement, more=()):
        self.open = set(statement.variables) | set(more)
        for name in list(self.open):
            self.open |= {f"{name}.{k}" for k in range(4)}

    def all_stand(self, statement, *found):
        """Every variable stands for something of the contract."""
        for name in statement.variables:
            whole = any(name in held for held in found)
            apart = any(key.startswith(name + ".") for held in found for key in held)
            if whole == apart:
                raise Wrong(f"the variable {name} is not one of the contract's")

    def covered(self, trees):
        """The parameters, final contents and answer that trees stand for."""
        return set().union(*(variables(t) for t in trees)) if trees else set()

    def besides(self, premises, found):
        """The premises besides the one that is the contract."""
        for k, premise in enumerate(premises):
            if self.fits(premise, self.contract.clause.whole, found):
                return premises[:k] + premises[k + 1 :]
        raise Wrong("no premise of it is the contract")

    def said_by_relation(self):
        """The equations that a relation is a product of, over the contract's own arguments; none where it is no product."""
        whole = self.contract.clause.whole
        crate, file, name = head(whole)[1]
        m = re.search(rf"^{name} (?P<held>[^=]*) =(?=\s)(?P<body>.*)", self.definitions.declaration((crate, file, name)).text, re.S | re.M)
        if m is None:
            return []
        held = m["held"].split()
        said = terms.read(m["body"], lambda word: self.definitions.meaning(crate, file, word), held)
        return [part for part in terms.parts(terms.put(said, dict(zip(held, terms.arguments(whole))))) if terms.sides(part)]

    def is_view(self, name):
        """A definition that gives an Option, and some of it."""
        if name is None or name[1][0] == "library" or not name[1][1].startswith("specs/") and not name[1][1].startswith("proofs/"):
            return False
        declaration = self.definitions.declaration(name[1])
        if declaration is None or not re.search(r"→ Option [^→]*$", signature(declaration).strip()):
            return False
        return self.says_below(name[1], "some")

    def says_below(self, node, word):
        """Whether a definition, or one that it rests on, has a word."""
        below = [n for n in self.reach.of(("text", *node)) if n[0] == "text"]
        return any(re.search(rf"(?<!\S)\(?{word}(?!\S)", self.definitions.declaration(n[1:]).text) for n in below)

    def views(self, tree, inner):
        """Strips definitions of one argument until what they view is `inner`."""
        seen = []
        while not inner(tree):
            if tree[0] != "app" or len(tree[2]) != 1 or head(tree) is None:
                raise Wrong("what is said of the answer is not said of the contract's own")
            seen.append(head(tree))
            tree = tree[2][0]
        if not seen or not self.is_view(seen[0]):
            raise Wrong("no definition tells the refusal that the answer is")
        return seen
