"""Aspects by chance without circular attributes: most are lazy, and ask those of lower layers, or themselves along the lists. The others look
at little: what looks at much is remembered within a question, and what takes it can't be kept again."""
from __future__ import annotations

from typing import Callable, List, Optional

from tools.of_the_program.circular_aspects import NULL, THIS, TRUE, Aspects, Attribute, Expr, Scope, word

# How often an attribute of another layer may be called, by which circles come.
CIRCLES = 0.02
GIVEN = {"String": word("w"), "Item": word("n")}


class PlainAspects(Aspects):
    """Attributes by chance, each in a layer of its own, and the lowest one lazy."""

    def attribute(self, name: str) -> Attribute:
        layer, kinds = int(name[1:]), self.chance.choice(((), (), ("String",), ("Item",), ("Item", "String")))
        return Attribute(name, layer, None, layer == 0 or self.chance.random() < 0.85, self.chance.random() < 0.2, kinds)

    def scope(self, attribute: Attribute, this: str) -> Scope:
        return PlainScope(self, attribute, this)


class PlainScope(Scope):
    """Expressions by chance, of which few come to a circle."""

    is_folding = False

    def any(self) -> List[Attribute]:
        return [it for it in self.aspects.attributes if it.lazy or self.of.lazy]

    def call(self, start: Optional[bool], node: Optional[Expr] = None) -> Expr:
        """A call of an attribute of a lower layer, where there is one; now and then of any."""
        known = [it for it in self.any() if it.layer < self.of.layer or self.often(CIRCLES)]
        return self.called(known, node) if known else self.atom()

    def along(self, depth: int) -> Expr:
        """What holds of this, or of what stands behind it."""
        if self.of.inherited or not self.of.lazy:
            return self.positive(depth - 1)
        behind = Expr("ask", (THIS,), "after")
        again = Expr("and", (Expr("other", (behind, NULL)), Expr("ask", (behind, *(GIVEN[it] for it in self.of.kinds)), self.of.name)))
        return Expr(self.chance.choice(("or", "and", "agree")), (self.positive(depth - 1), again))

    def folded(self, form: str, body: Callable[[], Expr]) -> Expr:
        """A fold; in what isn't lazy there is no other one in it."""
        if self.is_folding and not self.of.lazy:
            return TRUE
        self.is_folding = True
        made = super().folded(form, body)
        self.is_folding = False
        return made
