"""The shapes of the laws on merges, commutes_ to parts_. shapes.py says what each is held to. A law is a word of promises/specs/Totals, of the
call's own contract and of how its sets and answers are read: it has no variable and no premise of its own."""
from . import terms
from .contracts import ANSWER, cited
from .owed import JUDGED_BY
from .statement import Wrong
from .terms import arguments, head, parts_as_variables
from .walk_shapes import VERDICT_NAMED, VERDICT_NUMBER, WalkShapes, named

OF_TOTALS = ("promises", "specs/Totals")
# how sets and answers are read, and how verdicts on sets are told: by the definition that judges them, and in which form
IN_RATTLE = ((*OF_TOTALS, "in_rattle"), ("array", "specs/Calls", "Judges"), VERDICT_NAMED)
IN_C = ((*OF_TOTALS, "in_c"), ("exports", "specs/Calls", "vrf_verdict_lem"), VERDICT_NUMBER)


def applied_to(contract, outs):
    """A contract, which is a definition or a function, of these variables."""
    if contract[0] == "fun":
        return terms.put(parts_as_variables(contract[2], contract[1]), dict(zip(contract[1], (("var", n) for n in outs))))
    return terms.put(("app", ("var", " "), tuple(("var", n) for n in outs)), {" ": contract})


class MergeShapes(WalkShapes):
    @property
    def forms(self):
        return IN_RATTLE if self.in_rattle else IN_C

    def law(self, statement, word):
        """What stands behind the contract and the forms."""
        name = head(statement.conclusion)
        if name is None or name[1] != (*OF_TOTALS, word):
            raise Wrong(f"it is not {word} of a contract")
        if statement.variables or statement.premises:
            raise Wrong("it has a variable or a premise")
        contract, forms, *rest = arguments(statement.conclusion)
        outs = (" left", " right", " r")
        self.opened(statement, outs)
        found = {}
        if contract[0] == "fun" and len(contract[1]) != len(outs) or not self.fits(applied_to(contract, outs), self.contract.clause.whole, found):
            raise Wrong("its contract is not the call's `ensures`")
        if [found.get(n) for n in outs] != [("var", p.name) for p in self.call.parameters] + [ANSWER]:
            raise Wrong("it is not said of both sets and of the answer")
        if forms != named(self.forms[0]):
            raise Wrong("it reads sets or answers in another way")
        return rest

    def plain_law(self, statement, word):
        if self.law(statement, word):
            raise Wrong("it is said of more than the contract")

    def commutes(self, statement):
        self.plain_law(statement, "Commutes")

    def associates(self, statement):
        self.plain_law(statement, "Associates")

    def zero(self, statement):
        self.plain_law(statement, "ZeroKeeps")

    def totals(self, statement):
        self.plain_law(statement, "Totals")

    def parts(self, statement):
        judges, form = self.law(statement, "CleanParts")
        _, definition, told = self.forms
        said = applied_to(judges, (" set", " v"))
        by_definition = ("app", named(definition), (("var", " set"),))
        if said not in (("app", named(definition), (("var", " set"), ("var", " v"))), ("op", "≡", ("var", " v"), by_definition)):
            raise Wrong("its verdict is not that on a set")
        if form != named(told):
            raise Wrong("its verdict is told in another form")


def judged_by(contracts, report):
    """The verdicts that parts_ speaks of are the contracts of the calls that judge a set."""
    for call, (_, definition, _) in zip(JUDGED_BY, (IN_RATTLE, IN_C)):
        report.hold(cited(contracts[call]) == [definition], f"{call}: the laws on merges speak of {definition[2]}, which is not its contract")
