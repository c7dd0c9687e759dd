"""What the planner accepts and is yet likely a mistake."""
from __future__ import annotations

from .tasks import Atom, Domain, Problem, ROOT, Streams
from .texts import Source
from .uses import Use, Uses, longest_chain, uses_of

DEFAULT_DEPTH = 3


class Linter:
    """A task and what is told of it, each line once."""

    def __init__(self, domain: Domain, problem: Problem, streams: Streams):
        self.domain, self.problem, self.streams = domain, problem, streams
        self.uses: Uses = uses_of(domain, problem)
        self.told: list[str] = []
        self.sorts: dict[str, set[str]] = {}
        for name, sort in [*domain.constants, *problem.objects]:
            self.sorts.setdefault(name, set()).update(domain.above(sort))
        self.certified = {atom.name for stream in streams.items for atom in stream.certified}
        self.given = self.certified | {atom.name for atom in problem.facts}

    def tell(self, source: Source, place: int, kind: str, why: str) -> None:
        """Adds a line, once."""
        line = f"{source.at(place)}: {kind}: {why}"
        if line not in self.told:
            self.told.append(line)

    def types(self) -> None:
        """Arguments whose types can't be the declared ones."""
        for use in [*self.uses.conditions, *self.uses.effects]:
            self._fits(use.atom, use.sorts, use.source, use.owner)
        for fact in self.problem.facts:
            self._fits(fact, {}, self.problem.source, "init")
        for stream in self.streams.items:
            sorts = dict([*stream.inputs, *stream.outputs])
            for atom in [*stream.domain, *stream.certified]:
                self._fits(atom, sorts, self.streams.source, f"stream {stream.name}")

    def _fits(self, atom: Atom, sorts: dict[str, str], source: Source, owner: str) -> None:
        for term, (_, wanted) in zip(atom.terms, self.domain.predicates.get(atom.name, [])):
            have = self.domain.above(sorts[term]) if term in sorts else self.sorts.get(term, {ROOT})
            untyped = have == {ROOT}
            below = self.domain.above(wanted) & (have - {ROOT})
            if wanted != ROOT and not untyped and wanted not in have and not below:
                sort = sorts.get(term) or "/".join(sorted(have - {ROOT}))
                self.tell(source, atom.place, "type", f"{owner}: {atom} has {term} - {sort} where {wanted} is declared")

    def negations(self) -> None:
        """Certified predicates that are wanted false."""
        tests = {atom.name for stream in self.streams.items if stream.is_test for atom in stream.certified}
        for name in sorted(self.certified):
            if True not in self.uses.wanted(name) or name not in tests:
                continue
            use = self._first_negated(name)
            if use:
                self.tell(use.source, use.atom.place, "negation",
                          f"{use.owner}: `{name}` is wanted false here, and a test certifies it: until the test is "
                          f"asked it counts "
                          "as false, so a plan may rest on a test that was never made; certify the safe case and want "
                          "it true")

    def _first_negated(self, name: str) -> Use | None:
        for use in self.uses.conditions:
            signs = {False} if use.derived is None else self.uses.wanted(use.derived)
            if use.atom.name == name and any(use.is_negated != sign for sign in signs):
                return use
        return None

    def never_asked(self) -> None:
        """Streams whose domain facts or input types nothing gives."""
        outputs = {up for stream in self.streams.items for _, sort in stream.outputs for up in self.domain.above(sort)}
        there = outputs | {sort for sorts in self.sorts.values() for sort in sorts}
        for stream in self.streams.items:
            for atom in stream.domain:
                if atom.name not in self.given:
                    self.tell(self.streams.source, atom.place, "never-asked",
                              f"stream {stream.name} wants {atom}, which no :init and no stream gives")
            for name, sort in stream.inputs:
                if sort != ROOT and sort not in there:
                    self.tell(self.streams.source, stream.place, "never-asked",
                              f"stream {stream.name} wants {name} - {sort}, and nothing has this type")

    def never_true(self) -> None:
        """Static atoms that are wanted true and that nothing gives."""
        changed = {use.atom.name for use in self.uses.effects} | {item.head.name for item in self.domain.derived}
        for use in self.uses.conditions:
            name = use.atom.name
            if name not in self.given | changed and not use.is_negated:
                self.tell(use.source, use.atom.place, "never-true",
                          f"{use.owner} wants {use.atom}, which no :init, no stream and no effect gives")

    def unused(self) -> None:
        """Certified predicates that no condition and no stream wants."""
        wanted = {use.atom.name for use in self.uses.conditions}
        wanted |= {atom.name for stream in self.streams.items for atom in stream.domain}
        for stream in self.streams.items:
            for atom in stream.certified:
                if atom.name not in wanted:
                    self.tell(self.streams.source, atom.place, "unused",
                              f"stream {stream.name} certifies {atom}, and no action, no goal and no stream wants "
                              f"`{atom.name}`")

    def depth(self) -> None:
        """A chain of streams that is longer than the default depth."""
        longest = longest_chain(self.domain, self.streams)
        if len(longest) > DEFAULT_DEPTH:
            last = next(stream for stream in self.streams.items if stream.name == longest[-1])
            self.tell(self.streams.source, last.place, "depth",
                      f"{' > '.join(longest)} is a chain of {len(longest)} streams: in focused, binding and adaptive "
                      f"mode give "
                      f"--depth {min(len(longest), 8)} ({DEFAULT_DEPTH} is the default)")


def lint(domain: Domain, problem: Problem, streams: Streams) -> list[str]:
    """All that is told of a task, a line each."""
    linter = Linter(domain, problem, streams)
    for look in (linter.types, linter.negations, linter.never_asked, linter.never_true, linter.unused, linter.depth):
        look()
    return linter.told
