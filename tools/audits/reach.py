"""What a call rests on: the functions that its code calls, the constants and types that they name, and the definitions that the
contracts along the way cite, each followed further. Every name is looked up through the `use` lines of the file it stands in, so that
it means one thing of one crate.

A node is ("code", crate, module, name) or ("text", crate, file, name).
"""
from collections import deque



class Reach:
    def __init__(self, code, definitions):
        self.code = code
        self.definitions = definitions
        self.scopes = {}
        self.edges = {}
        self.found = {}

    def node(self, target):
        """A node of what a name means."""
        if target is None or target[2] is None:
            return None
        crate, where, name = target
        return ("text" if where.startswith(("specs/", "proofs/")) else "code", crate, where, name)

    def scope(self, crate, module):
        if (crate, module) not in self.scopes:
            self.scopes[crate, module] = self.definitions.scope_of(self.code.modules[crate, module])
        return self.scopes[crate, module]

    def cited(self, crate, module, clause):
        """What a clause of a contract names: definitions by `ghost use`, or the module's own types."""
        scope = self.scope(crate, module)
        for target in self.definitions.words(crate, None, clause, scope):
            yield self.node(target)
        for word in clause.replace("(", " ").split():
            target = self.code.resolve(crate, module, word.split(".")[0]) if word[:1].isupper() else None
            if target and target[2] and self.code.item(target).kind != "fn":
                yield self.node(target)

    def below(self, node):
        """The nodes that one node names."""
        if node not in self.edges:
            kind, crate, where, name = node
            named = set()
            if kind == "code":
                named |= {self.node(t) for t in self.code.mentioned((crate, where, name))}
                for clause in self.code.clauses((crate, where, name)):
                    named |= set(self.cited(crate, where, clause))
            else:
                declaration = self.definitions.declaration((crate, where, name))
                text = declaration.text + " " + " ".join(declaration.sections)
                named |= {self.node(t) for t in self.definitions.words(crate, where, text)}
            self.edges[node] = sorted(named - {node, None})
        return self.edges[node]

    def of(self, start):
        """Each node that a node rests on, with its distance."""
        if start not in self.found:
            far = {start: 0}
            todo = deque([start])
            while todo:
                node = todo.popleft()
                for other in self.below(node):
                    if other not in far:
                        far[other] = far[node] + 1
                        todo.append(other)
            self.found[start] = far
        return self.found[start]
