"""The shapes of the theorems on walks alone: prefix_, clean_, judged_, paths_, placed_, ordered_, copied_, accounted_ and behind_. shapes.py says what
each is held to."""
from .contracts import ANSWER
from .owed import COUNTS, window_of
from .statement import Spoken, Wrong
from .terms import arguments, head

OF_PREFIX = ("promises", "specs/Prefix")
OF_CLEAN = ("promises", "specs/Clean")
OF_VERDICTS = ("promises", "specs/Verdicts")
OF_PATHS = ("promises", "specs/Paths")
# of what a walk left: where its leaves lie, their order, their payloads, how all bits add up
LEFT = {
    "placed": ("promises", "specs/Places", "PlacedLeaves"),
    "ordered": ("promises", "specs/Accounts", "OrderedLeaves"),
    "copied": ("promises", "specs/Accounts", "CopiedLeaves"),
    "accounted": ("promises", "specs/Accounts", "AccountedLeaves"),
}
PAIRS_ACCOUNTED = ("promises", "specs/Accounts", "AccountedPairs")
OF_PAIRS = ("promises", "specs/PairsBehind")
ROOM_IN = ("array", "specs/Refusals", "room_in")
ANSWER_OF = ("array", "specs/Refusals", "answer_of")
COUNTERS_OF = ("array", "specs/Refusals", "counters_of_lem")
COUNTERS_IN = ("exports", "specs/WalkResults", "counters_in")
VERDICT_NAMED = ("array", "specs/Calls", "verdict_named")
VERDICT_NUMBER = ("exports", "specs/WalkResults", "verdict_number_lem")
# the walk that a call of `array` is: its arguments, by their places among the call's
WALKERS = {"struct_call": ("struct", (2, 4)), "exact_call": ("exact", (2, 3))}
# an accepted answer of a call of `array`, and what a walk gives
OK = ("library", "Rattle.std.specs.Prelude", "Ok")
WALKED = "Result<Walked<"


def named(meaning):
    return ("name", meaning, meaning[2])


def applied(meaning, *trees):
    return ("app", named(meaning), trees)


def walker_in(premise):
    """The walk that a contract speaks of, as a definition of framing; the object walk's contract has no call among its arguments."""
    call = arguments(premise)[0]
    if head(call) is None:
        return named(("framing", "specs/Sinks", "object"))
    name, places = WALKERS[head(call)[2]]
    return ("app", named(("framing", "specs/Sinks", name)), tuple(arguments(call)[k] for k in places))


class WalkShapes(Spoken):
    @property
    def in_rattle(self):
        """Whether the call answers by a Result; else by a struct for C."""
        return self.call.name.startswith("array::")

    def ends_in(self, statement, word, expected):
        """The conclusion is a word of the promises, of exactly these things."""
        name = head(statement.conclusion)
        if name is None or name[1] != word or arguments(statement.conclusion) != tuple(expected):
            raise Wrong(f"it doesn't end in {word[2]} of this call's own answer")

    def prefix(self, statement):
        self.opened(statement)
        bits = [p for p in statement.premises if head(p) is not None and head(p)[1] == (*OF_PREFIX, "FirstBits")]
        rest = [p for p in statement.premises if p not in bits]
        if len(bits) != 1 or len(rest) != 2:
            raise Wrong("its premises are not FirstBits and two answers that meet the contract")
        found = [{}, {}]
        told = [self.answered(premise, held) for premise, held in zip(rest, found)]
        longer, shorter, n, m = arguments(bits[0])
        window, count = ("var", window_of(self.call)), next(("var", p.name) for p in self.call.parameters if p.name in COUNTS)
        if [found[1].get(longer[1]), found[0].get(shorter[1]), found[1].get(n[1]), found[0].get(m[1])] != [window, window, count, count]:
            raise Wrong("FirstBits is not of the two windows")
        shared, lent = set(found[0]) & set(found[1]) - {" r"}, set(self.contract.lent)
        if any(found[0][v] != found[1][v] or self.covered([found[0][v]]) & (lent | self.exits | {ANSWER[1]}) for v in shared):
            raise Wrong("its two calls are not of the same tables and of any answers and buffers")
        values = told[0] + told[1]
        if len(set(values)) != len(values) or set(values) & (set(found[0]) | set(found[1])):
            raise Wrong("its answers are not any two accepted ones")
        ends = [next(("var", v) for v in held if held[v] != ANSWER and self.covered([held[v]]) <= self.exits) for held in found]
        pairs = head(arguments(rest[0])[0]) is None
        windows = (longer, n, m) if pairs else (arguments(rest[0])[0], arguments(rest[1])[0])
        if self.in_rattle:
            (u,), (w,) = [[("var", name) for name in names] for names in told]
            filled = [self.filled(of, pairs) for of in (u, w)]
            word, expected = "PairsBegin" if pairs else "Begins", (named(VERDICT_NAMED), *windows, ("get", u, "verdict"), ("get", w, "verdict"), *filled, *ends)
        else:
            word, expected = "PairsBeginInC" if pairs else "BeginsInC", (*windows, *map(self.answer_in, found), *ends)
        self.ends_in(statement, (*OF_PREFIX, word), expected)
        self.all_stand(statement, *found, dict.fromkeys(values))

    def answer_in(self, found):
        return next(("var", v) for v in found if found[v] == ANSWER)

    def filled(self, walked, pairs):
        """What an accepted walk says that it filled."""
        told = ("get", walked, "filled")
        return told if pairs else applied(ROOM_IN, told)

    def answered(self, premise, found):
        """The premise that an answer meets the contract; of a call that answers by a Result, the variable that an accepted one gives."""
        if self.in_rattle:
            return self.accepted(premise, found)
        if not self.fits(premise, self.contract.clause.whole, found):
            raise Wrong("its premise is not an answer that meets the contract")
        return []

    def accepted(self, premise, found):
        """The variable that an accepted answer gives, which meets the contract; the premise says so."""
        whole = self.contract.clause.whole
        place = arguments(whole).index(ANSWER)
        answer = arguments(premise)[place] if len(arguments(premise)) > place else ("var", "")
        if not self.call.returns.startswith(WALKED) or head(answer) is None or head(answer)[1] != OK or [a[0] for a in arguments(answer)] != ["var"]:
            raise Wrong("its answers are not accepted ones")
        plain = list(arguments(premise))
        plain[place] = ("var", " r")
        self.open.add(" r")
        if not self.fits(("app", premise[1], tuple(plain)), whole, found):
            raise Wrong("its premises are not answers that meet the contract")
        return [a[1] for a in arguments(answer)]

    def clean(self, statement):
        self.opened(statement)
        if len(statement.premises) != 1:
            raise Wrong("its premise is not an answer that meets the contract")
        premise, found = statement.premises[0], {}
        told = self.answered(premise, found)
        if len(set(told)) != len(told) or set(told) & set(found):
            raise Wrong("its answer is not any accepted one")
        end = next(("var", v) for v in found if found[v] != ANSWER and self.covered([found[v]]) <= self.exits)
        pairs = head(arguments(premise)[0]) is None
        window = arguments(premise)[:2] if pairs else arguments(premise)[:1]
        if self.in_rattle:
            (w,) = (("var", name) for name in told)
            counters = applied(COUNTERS_OF, ("get", w, "stats"))
            word, expected = "CleanPairs" if pairs else "CleanLeaves", (named(VERDICT_NAMED), *window, counters, ("get", w, "verdict"), self.filled(w, pairs), end)
        else:
            word, expected = "CleanPairsInC" if pairs else "CleanInC", (*window, self.answer_in(found), end)
        self.ends_in(statement, (*OF_CLEAN, word), expected)
        self.all_stand(statement, found, dict.fromkeys(told))

    def judged(self, statement):
        self.opened(statement)
        if len(statement.premises) != 1:
            raise Wrong("its premise is not an answer that meets the contract")
        premise, found, told = statement.premises[0], {}, []
        if window_of(self.call):
            told = self.answered(premise, found)
        elif not self.fits(premise, self.contract.clause.whole, found):
            raise Wrong("its premise is not an answer that meets the contract")
        word, expected = self.of_window(premise, found, told) if window_of(self.call) else self.of_set(found)
        self.ends_in(statement, (*OF_VERDICTS, word), expected)
        if len(set(told)) != len(told) or set(told) & set(found):
            raise Wrong("its answer is not any accepted one")
        self.all_stand(statement, found, dict.fromkeys(told))

    def of_window(self, premise, found, told):
        """What has to be said of the verdict on a walk's window."""
        bits = next(("var", v) for v in found if found[v] == ("var", "bits"))
        walk = (walker_in(premise), bits)
        if told:
            (w,) = (("var", v) for v in told)
            return "OnWindow", (named(VERDICT_NAMED), *walk, applied(COUNTERS_OF, ("get", w, "stats")), ("get", w, "verdict"))
        r = self.answer_in(found)
        counters = applied(COUNTERS_IN, ("get", r, "counters"))
        return "InC", (*walk, ("get", r, "refusal"), counters, ("get", r, "verdict"))

    def of_set(self, found):
        """What has to be said of the verdict on counters alone."""
        r = self.answer_in(found)
        counters = next(("var", v) for v in found if found[v] != ANSWER)
        form, of = (VERDICT_NAMED, COUNTERS_OF) if self.in_rattle else (VERDICT_NUMBER, COUNTERS_IN)
        return "OnSet", (named(form), applied(of, counters), r)

    def paths(self, statement):
        self.opened(statement)
        found = {}
        if len(statement.premises) != 1 or not self.fits(statement.premises[0], self.contract.clause.whole, found):
            raise Wrong("its premise is not an answer that meets the contract")
        r = self.answer_in(found)
        word, of = ("PathsFit", applied(ANSWER_OF, r)) if self.in_rattle else ("PathsFitInC", r)
        self.ends_in(statement, (*OF_PATHS, word), (of,))
        self.all_stand(statement, found)

    def left(self, statement, kind):
        """What a walk left: its own call, the answer, and what the buffers hold then; of pairs the bytes, the bits and the answer."""
        self.opened(statement)
        found = {}
        if len(statement.premises) != 1 or not self.fits(statement.premises[0], self.contract.clause.whole, found):
            raise Wrong("its premise is not an answer that meets the contract")
        told = arguments(statement.premises[0])
        pairs = head(told[0]) is None
        crate, file, word = PAIRS_ACCOUNTED if pairs else LEFT[kind]
        expected = (told[0], told[1], told[3]) if pairs else (told[0], told[2], told[3])
        self.ends_in(statement, (crate, file, word if self.in_rattle else f"{word}InC"), expected)
        self.all_stand(statement, found)

    def placed(self, statement):
        self.left(statement, "placed")

    def ordered(self, statement):
        self.left(statement, "ordered")

    def copied(self, statement):
        self.left(statement, "copied")

    def accounted(self, statement):
        self.left(statement, "accounted")

    def behind(self, statement):
        self.opened(statement)
        found = {}
        if len(statement.premises) != 1 or not self.fits(statement.premises[0], self.contract.clause.whole, found):
            raise Wrong("its premise is not an answer that meets the contract")
        *handed, r, end = arguments(statement.premises[0])
        self.ends_in(statement, (*OF_PAIRS, "GivenBehind" if self.in_rattle else "GivenBehindInC"), (*handed, r, end))
        self.all_stand(statement, found)
