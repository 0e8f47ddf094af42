"""The grammar's statements and items: the tree of a source."""
from difflib import get_close_matches

from arena.language.cursor import ELSEWHERE
from arena.language.expressions import Expressions
from arena.language.faults import Notes, SourceFault
from arena.language.syntax import (Application, Assign, Binary, Block, Break, Call, Cancel, CellName, CellPart,
                                   Constant, Continue, DeclareGroup, Evaluate, Expression, For, Function, Give, If, Inline, Isolate, Item,
                                   Let, LetBoth, LetTask, Name, Number, ParallelSum, Post, ReadCell, Return, Spawn,
                                   Statement, StoreCell, Sync, Wait, While)
from arena.language.tokens import WORDS, TokenKind, tokens_of

TOO_DEEP = "the source is nested too deep: split the expression or the block"
ASSIGNMENTS = ("=", "+=", "-=", "*=", "/=", "%=", "&=", "|=", "^=", "<<=", ">>=")


class Parser(Expressions):
    """Reads a source. A token that no rule allows is noted, and its statement or item left out."""

    def items(self) -> list[Item]:
        """Reads all items."""
        found: list[Item] = []
        self.skip_lines()
        while self.token.kind is not TokenKind.END_OF_FILE:
            try:
                found.append(self.item())
                if self.token.kind is not TokenKind.END_OF_LINE:
                    raise self.unexpected("the end of the line")
            except SourceFault as fault:
                self.skip_item(fault)
            self.skip_lines()
        return found

    def item(self) -> Item:
        """Reads one item."""
        place = self.place
        if self.sees("const", "param"):
            is_parameter = self.advance().text == "param"
            name = self.name()
            self.need("=")
            self.skip_breaks()
            return Constant(place, name, self.expression(), is_parameter)
        if self.take("cell"):
            return CellName(place, self.name("a cell"), self.key())
        if self.take("inline"):
            self.need("fn")
            name, parameters = self.name("a function"), self.parameters()
            self.need("=")
            self.skip_breaks()
            return Inline(place, name, parameters, self.expression())
        if self.take("fn"):
            return Function(place, self.name("a function"), self.parameters(), self.block())
        raise self.unexpected("fn, inline fn, const, param or cell")

    def key(self) -> int | None:
        """Reads `@ 3` if it is there."""
        if not self.take("@"):
            return None
        if self.token.kind is not TokenKind.NUMBER:
            raise self.unexpected("the number of a key")
        return self.number()

    def block(self) -> Block:
        """Reads `{ .. }`."""
        place = self.need("{")
        found: list[Statement] = []
        self.skip_lines()
        while not self.sees("}"):
            if self.is_at_end():
                raise place.fault("this `{` has no `}`")
            try:
                found.append(self.statement())
                if not self.sees("}") and self.token.kind is not TokenKind.END_OF_LINE:
                    raise self.unexpected("the end of the statement")
            except SourceFault as fault:
                if self.is_at_end():
                    raise
                self.skip_statement(fault)
            self.skip_lines()
        return Block(place, tuple(found), self.need("}"))

    def statement(self) -> Statement:
        """Reads one statement."""
        readers = {"let": self._let, "group": self._group, "spawn": self._spawn, "post": self._post, "sync": self._sync,
                   "cancel": self._cancel, "return": self._return, "give": self._give, "break": self._break,
                   "continue": self._continue, "while": self._while, "for": self._for, "if": self._if}
        if self.token.kind is TokenKind.WORD and self.token.text in readers:
            return readers[self.token.text]()
        if self.token.kind is TokenKind.NAME:
            self._refuse_misspelling()
            if self.ahead(1).text in ASSIGNMENTS:
                return self._assignment()
            if self.ahead(1).text == "." and self.ahead(3).text in ASSIGNMENTS:
                return self._store()
        return self._evaluation()

    def _refuse_misspelling(self) -> None:
        """Refuses two names in a row, of which the first should have been a word, and a word or sign of other languages."""
        first, second = self.token, self.ahead(1)
        if second.text in ("+", "-") and self.ahead(2).text == second.text:
            raise second.place.fault(f"there is no `{second.text * 2}`: write `{first.text} {second.text}= 1`")
        if first.text in ELSEWHERE and second.text not in (*ASSIGNMENTS, "."):
            raise first.place.fault(f"`{first.text}` begins no statement: {ELSEWHERE[first.text]}")
        if second.kind in (TokenKind.NAME, TokenKind.NUMBER):
            close = get_close_matches(first.text, sorted(WORDS), 1)
            hint = f"; did you mean `{close[0]}`?" if close else ": an assignment is `name = value`"
            raise first.place.fault(f"`{first.text}` begins no statement{hint}")

    def _evaluation(self) -> Statement:
        place, value = self.place, self.expression()
        if isinstance(value, Application):
            raise place.fault(f"this value goes nowhere: an fn is run by `call {value.name}(..)` or `spawn "
                              f"{value.name}(..)`, and the value of an inline fn needs a name, as in `let name = ..`")
        if not isinstance(value, Wait | Isolate | Call | ParallelSum):
            raise place.fault("this value goes nowhere: write `let name = ..`, or leave it out")
        return Evaluate(place, value)

    def _assignment(self) -> Assign:
        place, name = self.place, self.name()
        return Assign(place, name, self._assigned(Name(place, name)))

    def _store(self) -> StoreCell:
        place, cell = self.place, self.name()
        self.advance()
        part = self.advance()
        if part.text != "local":
            raise part.place.fault(f"only {cell}.local can be assigned to")
        return StoreCell(place, cell, self._assigned(ReadCell(place, cell, CellPart.LOCAL)))

    def _assigned(self, before: Expression) -> Expression:
        """Reads `= value`, or `+= value` and the like as an operation on what is there before."""
        sign = self.advance()
        self.skip_breaks()
        value = self.expression()
        return value if sign.text == "=" else Binary(sign.place, sign.text[:-1], before, value)

    def _let(self) -> Statement:
        place = self.need("let")
        name = self.name()
        if self.take(","):
            status = self.name("the status")
            self.need("=")
            self.skip_breaks()
            self.need("wait")
            return LetBoth(place, name, status, self.name("a group or a task"))
        self.need("=")
        self.skip_breaks()
        if self.take("spawn"):
            return LetTask(place, name, self.application())
        return Let(place, name, self.expression())

    def _group(self) -> DeclareGroup:
        return DeclareGroup(self.need("group"), self.name("a group"))

    def _spawn(self) -> Spawn:
        place, group = self.need("spawn"), None
        if self.ahead(1).text == ":":
            group = self.name("a group")
            self.need(":")
        return Spawn(place, group, self.application())

    def _post(self) -> Post:
        return Post(self.need("post"), self.application())

    def _sync(self) -> Sync:
        return Sync(self.need("sync"))

    def _cancel(self) -> Cancel:
        return Cancel(self.need("cancel"), self.name("a group or a task"))

    def _return(self) -> Return:
        place = self.need("return")
        is_bare = self.token.kind is TokenKind.END_OF_LINE or self.sees("}")
        return Return(place, Number(place, 0) if is_bare else self.expression())

    def _give(self) -> Give:
        return Give(self.need("give"), self.expression())

    def _break(self) -> Break:
        return Break(self.need("break"))

    def _continue(self) -> Continue:
        return Continue(self.need("continue"))

    def _while(self) -> While:
        return While(self.need("while"), self.expression(), self.block())

    def _for(self) -> For:
        place, index = self.need("for"), self.name("the counter")
        self.need("in")
        ends = self.range()
        return For(place, index, ends.low, ends.high, ends.step, self.block())

    def _if(self) -> If:
        place, condition, then = self.need("if"), self.expression(), self.block()
        start = self._at
        self.skip_lines()
        if not self.take("else"):
            self._at = start
            return If(place, condition, then, Block(then.end, (), then.end))
        if self.sees("if"):
            inner = self._if()
            return If(place, condition, then, Block(inner.place, (inner,), inner.otherwise.end))
        return If(place, condition, then, self.block())


def parse(text: str, notes: Notes | None = None) -> list[Item]:
    """The tree of a source: its items in order. Raises `SourceFault` with all faults of the grammar."""
    notes = notes or Notes()
    tokens = tokens_of(text, notes)
    notes.spoil()
    parser = Parser(tokens, notes)
    try:
        items = parser.items()
    except RecursionError:
        notes.note(parser.place.fault(TOO_DEEP))
        items = []
    notes.refuse()
    return items
