"""The shape of each kind of theorem on a call. A theorem is KIND_CALL; owed.py says which calls owe one. A statement is
read with the binders of the sections around it. Its variables stand for parameters of the call, for final contents, for the answer, or
for several lists side by side (MAKERS of contracts.py). In all kinds:

  - what is said of the call is its own `ensures`: the one definition that this cites, over variables for what is handed in and comes out;
  - every variable stands in the contract, and every premise is one that the kind names: so none can be added.

  one_       Determines C, or DeterminesAll C where buffers are lent; C r (C r end) is the contract: `r ≡` its definition, or its relation
  refused_   under the contract: VIEW r ≡ firstOf RULES. VIEW is one or more definitions, the outermost of which gives an Option; RULES a
             definition that gives a list of rules, or numbered_rules of one, and every parameter of the call is among its arguments
  kept_      under the contract, and where the answer is refused (VIEW r ≡ some n, with the VIEW of the refused_ theorem, or
             `r.refusal ≡ 0 → ⊥`; where a call can't refuse, but its relation says that X is stored at P of its buffer B,
             `length B < P + length X`): the final contents of each buffer are those at the entry
  outside_   of two lists s and t that agree in the window (Agree; or, which asks less, are as many bytes): what the contract's definition
             gives for s it gives for t; or, where the contract is a relation, two answers that meet it coincide, with the buffers
  longer_    the same however many bytes follow: of two lists that both hold the cursor's window (Inside) or the first bits (Hold); of a walk
             also of two that both hold fewer (Alike); of a fast-array body of two that both have as many bytes as its bits take, or both
             haven't (AlikeBodies)
  stays_     under the contract: Stays of the cursor's position and of the refusal, told as in the refused_ theorem; StaysInC of the struct for C
  finite_    under the contract: the word of promises/specs/Finite that owed.py names, of the answer
  padded_    under the contract: the word of promises/specs/Padded that owed.py names, of the cursor's position and the answer; or that of
             promises/specs/PaddedCounts, of what the contract says is walked or decoded, and the answer; or that of PaddedMovements, of
             all that is handed in, and the answer
  prefix_    under FirstBits, and two accepted answers that meet the contract: Begins, or PairsBegin, of these answers and buffers; of two
             structs for C that meet it BeginsInC, or PairsBeginInC
  clean_     under the contract: CleanLeaves, or CleanPairs, of an accepted answer and its buffers; CleanInC, or CleanPairsInC, of the struct for C
  judged_    under the contract: OnWindow of an accepted answer's counters and verdict, or InC of the struct for C, with the call's own walk
             and bits; OnSet of an answer on counters alone
  paths_     under the contract: PathsFit of the answer, or PathsFitInC of the struct for C
  placed_, ordered_, copied_, accounted_   under the contract: PlacedLeaves, OrderedLeaves, CopiedLeaves or AccountedLeaves of the call's own walk, the
             answer and its buffers, or the same InC of the struct for C; accounted_ of an object walk: AccountedPairs of its bytes, bits and answer
  behind_    under the contract: GivenBehind of the answer and its buffer, or GivenBehindInC of the struct for C
  commutes_, associates_, zero_, totals_, parts_   of a merge: Commutes, Associates, ZeroKeeps, Totals, CleanParts of the contract
"""
import re

from . import terms
from .contracts import ANSWER, at_exit
from .merge_shapes import MergeShapes
from .owed import COUNTING, COUNTING_TWO, COUNTS, FINITE, OBJECTS, PACKED, agreement_of, cursor_of, refuses, window_of
from .statement import Wrong, signature
from .terms import arguments, head, parts, parts_as_variables, sides, variables
from .walk_shapes import applied

OF_DETERMINING = ("promises", "specs/Determining")
OF_OUTSIDE = ("promises", "specs/Outside")
FIRST_OF = ("bits", "specs/Refusals", "first_of")
NUMBERED_RULES = ("promises", "specs/ExportOrders", "numbered_rules")
SOME = ("library", "mathlib.Core.Option", "some")
LENGTH = ("library", "lib.ListN", "length")
STORE = ("bits", "specs/Runs", "store")
AGREEMENTS = {(*OF_OUTSIDE, word) for word in ("Agree", "Hold", "Alike", "AlikeBodies", "Inside")}
CURSOR_OF = ("exports", "specs/ReadResults", "cursor_of_lem")
OF_STAYS = ("promises", "specs/Stays")
OF_FINITE = ("promises", "specs/Finite")
OF_PADDED = ("promises", "specs/Padded")
OF_COUNTS = ("promises", "specs/PaddedCounts")
OF_TWO = ("promises", "specs/PaddedMovements")


def length(tree):
    return ("app", ("name", LENGTH, "length"), (tree,))


class Shapes(MergeShapes):
    """What a statement of each kind is held to; `Wrong` says why one is not of its shape."""

    def one(self, statement):
        name = head(statement.conclusion)
        if name is None or name[1][:2] != OF_DETERMINING or len(arguments(statement.conclusion)) != 1:
            raise Wrong("it is not `Determines` of a contract")
        if statement.premises:
            raise Wrong("it has a premise")
        count = {"Determines": 1, "DeterminesAll": 2}[name[2]]
        contract = arguments(statement.conclusion)[0]
        if contract[0] == "fun":
            outs, said = contract[1], parts_as_variables(contract[2], contract[1])
        else:
            outs = (" r", " end")[:count]
            said = terms.put(("app", ("var", " "), tuple(("var", n) for n in outs)), {" ": contract})
        if len(outs) != count:
            raise Wrong("it is not said of the answer and the buffers")
        self.opened(statement, outs)
        found = {}
        if not self.fits(said, self.contract.clause.whole, found):
            raise Wrong("its proposition is not the contract's `ensures`")
        ends = [found[key] for key in found if count == 2 and (key == outs[1] or key.startswith(outs[1] + "."))]
        if found.get(outs[0]) != ANSWER or self.covered(ends) != self.exits:
            raise Wrong("it is not said of the answer and of every buffer")
        self.all_stand(statement, found)

    def refused(self, statement):
        self.opened(statement)
        pair = sides(statement.conclusion)
        if pair is None:
            raise Wrong("it is no equation of the refusal and the first rule that holds")
        rules = pair[1]
        if head(rules) is None or head(rules)[1] != FIRST_OF or len(arguments(rules)) != 1:
            raise Wrong("its right side is not the first of a list of rules")
        rules = arguments(rules)[0]
        if head(rules) is not None and head(rules)[1] == NUMBERED_RULES:
            rules = arguments(rules)[-1]
        found = {}
        if self.besides(statement.premises, found):
            raise Wrong("it has a premise besides the contract")
        told = self.views(pair[0], lambda tree: tree[0] == "var" and found.get(tree[1]) == ANSWER)
        name = head(rules)
        declaration = self.definitions.declaration(name[1]) if name is not None and name[1][0] != "library" else None
        if declaration is None or not re.search(r"→ List \(Rule [^→]*\)$", signature(declaration).strip()) or not self.says_below(name[1], "when"):
            raise Wrong("its rules are no list of rules that is defined")
        given = self.covered([found[v] for v in variables(rules) if v in found])
        if not given >= self.handed:
            raise Wrong(f"its rules don't look at {', '.join(sorted(self.handed - given))}")
        self.all_stand(statement, found)
        self.contract.told = told

    def kept(self, statement):
        self.opened(statement)
        found = {}
        rest = self.besides(statement.premises, found)
        if len(rest) != 1:
            raise Wrong("its premises are not the contract and that the call is refused")
        self.is_refusal(rest[0], found)
        same = set()
        for part in parts(statement.conclusion):
            pair = sides(part)
            if pair is None or any(t[0] != "var" or t[1] not in found for t in pair):
                raise Wrong("it doesn't end in final contents that are those at the entry")
            after, before = (found[t[1]] for t in pair)
            entry = [("var", at_exit(t[1])) for t in ([before] if before[0] == "var" else arguments(before))]
            if entry != ([after] if after[0] == "var" else list(arguments(after))) or not self.covered([after]) <= self.exits:
                raise Wrong("it doesn't end in final contents that are those at the entry")
            same |= self.covered([after])
        if same != {at_exit(p.name) for p in self.call.parameters if p.lent}:
            raise Wrong("it doesn't speak of every lent buffer")
        self.all_stand(statement, found)

    def is_refusal(self, premise, found):
        """The premise that an answer is a refusal."""

        def answers(tree):
            return tree[0] == "var" and found.get(tree[1]) == ANSWER

        pair = sides(premise)
        if pair and head(pair[1]) is not None and head(pair[1])[1] == SOME:
            number = arguments(pair[1])
            if len(number) == 1 and number[0][0] == "var" and number[0][1] in self.open and number[0][1] not in found:
                if self.views(pair[0], answers) != self.contract.told:
                    raise Wrong("the refusal is not told as in the `refused_` theorem")
                found[number[0][1]] = ("var", "the refusal")
                return
        if premise[0] == "all" and len(premise[1]) == 1 and premise[2] == ("var", "⊥"):
            inner = sides(premise[1][0][1])
            if inner and inner[0][0] == "get" and answers(inner[0][1]) and inner[0][2] == "refusal" and inner[1] == ("var", "0"):
                return
        for _, stored in map(sides, self.said_by_relation() if not refuses(self.call) else []):
            if head(stored) is not None and head(stored)[1] == STORE:
                buffer, place, run = arguments(stored)
                if self.fits(premise, ("op", "<", length(buffer), ("op", "+", place, length(run))), found):
                    return
        raise Wrong("nothing says that the answer is a refusal")

    def outside(self, statement, agreement="Agree"):
        self.opened(statement)
        agree = [p for p in statement.premises if self.is_agreement(p)]
        if len(agree) != 1:
            raise Wrong("it has not the one premise that two lists agree in the window")
        rest = [p for p in statement.premises if p is not agree[0]]
        s, t = self.two_lists(agree[0])
        first, second = {}, {}
        clause = self.contract.clause
        if rest:
            if len(rest) != 2 or not self.fits(rest[0], clause.whole, first) or not self.fits(rest[1], clause.whole, second):
                raise Wrong("its premises are not two answers that meet the contract")
            said = set()
            for part in parts(statement.conclusion):
                pair = sides(part)
                if pair is None or pair[0] == pair[1] or first.get(pair[0][1]) is None or first.get(pair[0][1]) != second.get(pair[1][1]):
                    raise Wrong("it doesn't end in equal answers and equal buffers")
                said |= self.covered([first[pair[0][1]]])
            if said != self.exits | {ANSWER[1]}:
                raise Wrong("it doesn't speak of the answer and of every buffer")
        else:
            pair = sides(statement.conclusion)
            if pair is None or clause.left is None or pair[0] == pair[1]:
                raise Wrong("it is no equation of what the contract makes of two lists")
            if not self.fits(pair[0], clause.right, first) or not self.fits(pair[1], clause.right, second):
                raise Wrong("its sides are not what the contract says of two lists")
        window = ("var", window_of(self.call))
        if first.get(s) != window or second.get(t) != window or s in second or t in first:
            raise Wrong("its two sides are not of the two lists")
        if any(first[v] != second[v] for v in set(first) & set(second)):
            raise Wrong("its two sides differ in more than the lists")
        self.looks_at_the_window(agree[0], first, agreement)
        self.all_stand(statement, first, second)

    def is_agreement(self, premise):
        if head(premise) is not None and head(premise)[1] in AGREEMENTS:
            return True
        pair = sides(premise)
        return bool(pair) and all(head(p) is not None and head(p)[1] == LENGTH and len(arguments(p)) == 1 for p in pair)

    def two_lists(self, premise):
        pair = sides(premise)
        held = [arguments(p)[0] for p in pair] if pair else list(arguments(premise)[:2])
        if len(held) != 2 or any(h[0] != "var" or h[1] not in self.open for h in held) or held[0] == held[1]:
            raise Wrong("the premise is not of two lists")
        return held[0][1], held[1][1]

    def looks_at_the_window(self, premise, found, agreement):
        """The lists agree in the call's own window, no further."""
        if sides(premise) and agreement == "Agree":
            return
        if sides(premise) or head(premise)[2] != agreement:
            raise Wrong(f"its premise is not {agreement}")
        rest = arguments(premise)[2:]
        cursor = cursor_of(self.call)
        if cursor:
            c = next((v for v in found if found[v] == ("var", cursor)), None)
            window = [(("get", ("var", c), "start"), ("get", ("var", c), "len")), (("var", c),), (applied(CURSOR_OF, ("var", c)),)]
        else:
            n = next((v for v in found if found[v][0] == "var" and found[v][1] in COUNTS), None)
            window = [(("var", "0"), ("var", n)), (("var", n),)]
        if rest not in window:
            raise Wrong("its premise speaks of other bits than those of the call's window")

    def longer(self, statement):
        self.outside(statement, agreement_of(self.call))

    def stays(self, statement):
        found = self.meets(statement)
        at = self.position_in(found)
        if self.call.name.startswith("exports::"):
            self.ends_in(statement, (*OF_STAYS, "StaysInC"), (at, self.answer_in(found)))
            return
        if head(statement.conclusion) is None or head(statement.conclusion)[1] != (*OF_STAYS, "Stays") or arguments(statement.conclusion)[0] != at:
            raise Wrong("it doesn't say that the cursor stays where it stood")
        if self.views(arguments(statement.conclusion)[1], lambda tree: tree == self.answer_in(found)) != self.contract.told:
            raise Wrong("the refusal is not told as in the `refused_` theorem")

    def finite(self, statement):
        found = self.meets(statement)
        word, told = FINITE[self.call.returns]
        said = [self.answer_in(found)]
        if told:
            width = ("var", next(v for v in found if found[v] == ("var", told[-1])))
            for definition in reversed(told[:-1]):
                width = applied(definition, width)
            said.insert(0, width)
        self.ends_in(statement, (*OF_FINITE, word), said)

    def padded(self, statement):
        found = self.meets(statement)
        r = self.answer_in(found)
        if self.call.name in PACKED:
            self.ends_in(statement, (*OF_PADDED, PACKED[self.call.name]), (self.position_in(found), r))
            return
        if self.call.name in COUNTING_TWO:
            said = [("var", next(v for v in found if found[v] == ("var", p.name))) for p in self.call.parameters]
            self.ends_in(statement, (*OF_TWO, COUNTING_TWO[self.call.name]), (*said, r))
            return
        handed = arguments(statement.premises[0])[:2 if self.call.name in OBJECTS else 1]
        self.ends_in(statement, (*OF_COUNTS, COUNTING[self.call.name]), (*handed, r))

    def position_in(self, found):
        """Where the call's cursor stood."""
        return ("get", ("var", next(v for v in found if found[v] == ("var", cursor_of(self.call)))), "pos")

    def meets(self, statement):
        """What the variables stand for, where the one premise is an answer that meets the contract."""
        self.opened(statement)
        found = {}
        if len(statement.premises) != 1 or not self.fits(statement.premises[0], self.contract.clause.whole, found):
            raise Wrong("its premise is not an answer that meets the contract")
        self.all_stand(statement, found)
        return found
