"""Statements as trees, so that two of them can be compared without their spaces, parentheses and names of variables.

A tree is a tuple:
  ("var", name)                a variable, a parameter, or a number
  ("name", meaning, word)      a definition, a theorem or a type of the repository (what `use` lines make of the word)
  ("app", f, (arguments..))    an application
  ("get", tree, field)         a field of a record or a part of a tuple
  ("op", sign, left, right)    an equation, a product, an order, arithmetic, `→` between propositions
  ("fun", (names..), body)     λ
  ("all", ((name, type)..), body)  a type over its binders; the name is none where only a premise stands
"""
import re

from .repository import kept_by_text

TOKEN = re.compile(r"\s+|«(?P<quoted>[^»]*)»|(?P<mark>[(){},;λ→×]|=(?=\s)|\.(?=\s|$)|:(?=\s))|(?P<field>\.«?[^\s(){}«».,;]+»?)|(?P<word>[^\s(){}«».,;]+(?:\.[^\s(){}«».,;]+)*)")
# how tightly a sign binds; the first of a list binds least
SIGNS = [["×"], ["≡", "≤", "<", "=="], ["||"], ["&&"], ["++", "∷"], ["+", "-"], ["*", "/", "%"], ["^"]]
LEVEL = {sign: k for k, signs in enumerate(SIGNS) for sign in signs}


class Unread(Exception):
    """A statement that is not of the kind that is read here."""


@kept_by_text
def tokens_of(text):
    found, at = [], 0
    while at < len(text):
        m = TOKEN.match(text, at)
        if not m or m.end() == at:
            raise Unread(text[at : at + 20])
        at = m.end()
        if m["quoted"] is not None:
            found.append(("word", m["quoted"]))
        elif m["mark"]:
            found.append(("mark", m["mark"]))
        elif m["field"]:
            if m.start() == 0 or text[m.start() - 1].isspace():  # a field is written tight behind what it is of
                raise Unread(m["field"])
            found.append(("field", m["field"][1:].strip("«»")))
        elif m["word"]:
            found.append(("word", m["word"]))
    return tuple(found)


class Parser:
    def __init__(self, text, meaning):
        self.tokens = tokens_of(text)
        self.at = 0
        self.meaning = meaning  # word -> what it means, or none
        self.bound = []

    def peek(self, ahead=0):
        k = self.at + ahead
        return self.tokens[k] if k < len(self.tokens) else ("end", "")

    def next(self):
        token = self.peek()
        self.at += 1
        return token

    def want(self, mark):
        if self.next() != ("mark", mark):
            raise Unread(f"no {mark} where one is due")

    def is_binder(self):
        if self.peek()[1] not in ("(", "{") or self.peek()[0] != "mark":
            return False
        k = 1
        while self.peek(k)[0] == "word":
            k += 1
        return k > 1 and self.peek(k) == ("mark", ":")

    def binders(self):
        found = []
        while self.is_binder():
            close = {"(": ")", "{": "}"}[self.next()[1]]
            names = []
            while self.peek()[0] == "word":
                names.append(self.next()[1])
            self.want(":")
            kind = self.statement()
            self.want(close)
            found += [(name, kind) for name in names]
            self.bound += names
        return found

    def statement(self):
        if self.peek() == ("word", "let"):
            return self.let()
        if self.is_binder():
            depth = len(self.bound)
            held = self.binders()
            if self.peek() == ("mark", "→"):
                self.next()
            body = self.statement()
            del self.bound[depth:]
            return flat(("all", tuple(held), body))
        left = self.signed(0)
        if self.peek() == ("mark", "→"):
            self.next()
            return flat(("all", ((None, left),), self.statement()))
        return left

    def let(self):
        self.next()
        name = self.next()[1]
        self.want("=")
        value = self.statement()
        if self.next() != ("word", "in"):
            raise Unread("no `in` behind a `let`")
        self.bound.append(name)
        body = self.statement()
        self.bound.pop()
        return put(body, {name: value})

    def signed(self, level):
        if level == len(SIGNS):
            return self.applied()
        left = self.signed(level + 1)
        sign = self.peek()[1]
        if self.peek()[0] in ("word", "mark") and LEVEL.get(sign) == level:
            self.next()
            right = self.signed(level) if sign in ("×", "∷", "++") else self.signed(level + 1)
            return ("op", sign, left, right)
        return left

    def applied(self):
        if self.peek() == ("mark", "λ"):
            return self.function()
        if self.peek() == ("word", "let"):
            return self.let()
        head = self.atom()
        if head is None:
            raise Unread(f"nothing where a term is due, before {self.peek()[1]}")
        held = []
        while True:
            more = self.atom()
            if more is None:
                break
            held.append(more)
        return ("app", head, tuple(held)) if held else head

    def function(self):
        self.next()
        depth, names = len(self.bound), []
        while self.peek() != ("mark", "."):
            if self.is_binder():
                names += [name for name, _ in self.binders()]
            elif self.peek()[0] == "word":
                names.append(self.next()[1])
            else:
                raise Unread("λ")
        self.want(".")
        self.bound += names
        body = self.statement()
        del self.bound[depth:]
        return ("fun", tuple(names), body)

    def atom(self):
        """A word or what stands in parentheses, with the fields behind it."""
        kind, word = self.peek()
        if kind == "word" and word not in LEVEL and word not in ("let", "in"):
            self.next()
            found = self.named(word)
        elif (kind, word) == ("mark", "("):
            self.next()
            found = self.statement()
            self.want(")")
        else:
            return None
        while self.peek()[0] == "field":
            found = ("get", found, self.next()[1])
        return found

    def named(self, word):
        """What a word with dots is: a variable, or the longest name in front that means something, and fields of it."""
        parts = word.split(".")
        for k in range(len(parts), 0, -1):
            first = ".".join(parts[:k])
            if k > 1 and parts[0] in self.bound:
                continue
            meaning = None if first in self.bound else self.meaning(first)
            if meaning or k == 1:
                found = ("name", meaning, parts[k - 1]) if meaning else ("var", first)
                for field in parts[k:]:
                    found = ("get", found, field)
                return found


def flat(tree):
    """Binders of binders as one list."""
    if tree[0] == "all" and tree[2][0] == "all":
        return ("all", tree[1] + tree[2][1], tree[2][2])
    return tree


def read(text, meaning, bound=()):
    """The tree of a statement; `bound` are words that are variables whatever `use` lines say."""
    parser = Parser(text, meaning)
    parser.bound = list(bound)
    tree = parser.statement()
    if parser.peek()[0] != "end":
        raise Unread(f"something stands behind the statement: {parser.peek()[1]}")
    return tree


def put(tree, values):
    """The tree with trees for variables."""
    kind = tree[0]
    if kind == "var":
        return values.get(tree[1], tree)
    if kind == "name":
        return tree
    if kind == "app":
        head = put(tree[1], values)
        held = tuple(put(t, values) for t in tree[2])
        return ("app", head[1], head[2] + held) if head[0] == "app" else ("app", head, held)
    if kind == "get":
        return ("get", put(tree[1], values), tree[2])
    if kind == "op":
        return ("op", tree[1], put(tree[2], values), put(tree[3], values))
    if kind == "fun":
        inner = {name: value for name, value in values.items() if name not in tree[1]}
        return ("fun", tree[1], put(tree[2], inner))
    inner, held = dict(values), []
    for name, of in tree[1]:
        held.append((name, put(of, inner)))
        inner.pop(name, None)
    return ("all", tuple(held), put(tree[2], inner))


def parts(tree):
    """The factors of a product."""
    return [tree[2]] + parts(tree[3]) if tree[:2] == ("op", "×") else [tree]


def sides(tree):
    """The two sides of an equation, or none."""
    return (tree[2], tree[3]) if tree[:2] == ("op", "≡") else None


def variables(tree):
    kind = tree[0]
    if kind == "var":
        return {tree[1]}
    if kind == "name":
        return set()
    if kind == "app":
        return variables(tree[1]).union(*(variables(t) for t in tree[2]))
    if kind == "get":
        return variables(tree[1])
    if kind == "op":
        return variables(tree[2]) | variables(tree[3])
    if kind == "fun":
        return variables(tree[2]) - set(tree[1])
    found, bound = set(), set()
    for name, of in tree[1]:
        found |= variables(of) - bound
        bound.add(name)
    return found | (variables(tree[2]) - bound)


def head(tree):
    """The name that is applied, or none."""
    if tree[0] == "app":
        tree = tree[1]
    return tree if tree[0] == "name" else None


def arguments(tree):
    return tree[2] if tree[0] == "app" else ()


def fit(pattern, tree, open_names, found, may):
    """Whether the tree is the pattern with trees for its open variables, which are put into `found`; `may` says which trees may stand for one."""
    if pattern[0] == "var" and pattern[1] in open_names:
        if pattern[1] in found:
            return found[pattern[1]] == tree
        if not may(tree):
            return False
        found[pattern[1]] = tree
        return True
    if pattern[0] != tree[0]:
        return False
    if pattern[0] in ("var", "name"):
        return pattern == tree
    if pattern[0] == "app":
        return len(pattern[2]) == len(tree[2]) and fit(pattern[1], tree[1], open_names, found, may) and all(
            fit(p, t, open_names, found, may) for p, t in zip(pattern[2], tree[2])
        )
    if pattern[0] == "get":
        return pattern[2] == tree[2] and fit(pattern[1], tree[1], open_names, found, may)
    if pattern[0] == "op":
        return pattern[1] == tree[1] and fit(pattern[2], tree[2], open_names, found, may) and fit(pattern[3], tree[3], open_names, found, may)
    return pattern == tree


def parts_as_variables(tree, open_names):
    """`end.0` of an open variable as a variable of its own."""
    kind = tree[0]
    if kind == "get" and tree[1][0] == "var" and tree[1][1] in open_names and tree[2].isdigit():
        return ("var", f"{tree[1][1]}.{tree[2]}")
    if kind in ("var", "name"):
        return tree
    if kind == "app":
        return ("app", parts_as_variables(tree[1], open_names), tuple(parts_as_variables(t, open_names) for t in tree[2]))
    if kind == "get":
        return ("get", parts_as_variables(tree[1], open_names), tree[2])
    if kind == "op":
        return ("op", tree[1], parts_as_variables(tree[2], open_names), parts_as_variables(tree[3], open_names))
    if kind == "fun":
        return ("fun", tree[1], parts_as_variables(tree[2], open_names))
    return ("all", tuple((n, parts_as_variables(t, open_names)) for n, t in tree[1]), parts_as_variables(tree[2], open_names))
