"""The editor's requests about documents. Each is answered by its number, at once or when its inquiry is over.

Methods raise Failure where a message isn't as it should be, or the document isn't open."""
from __future__ import annotations

from typing import Any, Callable, Dict, List, Optional, Tuple

from .coloring import Token, encoded, find_tokens
from .completing import Completions, find_completions
from .desk import Desk
from .editor import Editor
from .fixing import Fix, find_fixes
from .inquiry import Inquiry
from .language_files import SUFFIXES
from .meaning import Hover, find_definition, find_references, word_at
from .outline import folds_of, location_of, matching_symbols, symbols_of
from .params import part, position_in, uri_in
from .positions import Span
from .project import Project, Request
from .protocol import Json, Symbol, range_of
from .reasons import Words, find_hover_with_reasons
from .renaming import Places, Wish, find_renaming
from .rpc import INVALID_PARAMS, REQUEST_FAILED, Failure
from .source import Spot
from .workspace import Workspace

# The protocol's numbers: how a name is used, and kinds of what completes.
READ, WRITTEN = 2, 3
WORD, NAME = 14, 6
COMPLETED: Dict[int, int] = {
    Symbol.CLASS: 7, Symbol.METHOD: 2, Symbol.FUNCTION: 3, Symbol.FIELD: 5, Symbol.PROPERTY: 10, Symbol.VARIABLE: 6, Symbol.CONSTANT: 21,
    Symbol.INTERFACE: 8, Symbol.MODULE: 9, Symbol.ENUM: 13, Symbol.ENUM_MEMBER: 20, Symbol.STRUCT: 22, Symbol.TYPE_PARAMETER: 25,
}  # fmt: skip
# How many symbols of all files are told at most.
MOST_SYMBOLS = 500


class Requests:
    """Answers requests about the documents of a workspace."""

    def __init__(self, workspace: Workspace, editor: Editor) -> None:
        self.workspace, self.editor = workspace, editor
        self.handlers: Dict[str, Callable[[Any, Any], None]] = {
            "textDocument/hover": self.hover,
            "textDocument/definition": self.definition,
            "textDocument/references": self.references,
            "textDocument/documentHighlight": self.highlight,
            "textDocument/prepareRename": self.prepare_rename,
            "textDocument/rename": self.rename,
            "textDocument/completion": self.completion,
            "textDocument/codeAction": self.fixes,
            "textDocument/documentSymbol": self.symbols,
            "textDocument/foldingRange": self.folds,
            "textDocument/semanticTokens/full": self.tokens,
            "textDocument/semanticTokens/range": self.tokens,
            "workspace/symbol": self.matching,
        }

    def handle(self, method: str, number: Any, params: Any) -> None:
        """Has a request answered that is one of `handlers`; nothing is told of a file of a language itself. Raises Failure."""
        if method.startswith("textDocument/") and uri_in(params).endswith(SUFFIXES):
            self.editor.answer(number, None)
        else:
            self.handlers[method](number, params)

    def hover(self, number: Any, params: Any) -> None:
        """What is told of the name or expression at a place."""
        project, file, offset = self.place(params)

        def result(hover: Optional[Hover]) -> Optional[Json]:
            if hover is None:
                return None
            return {"contents": {"kind": "plaintext", "value": hover.text}, "range": range_of(project.texts[file], hover.span)}

        words = Words(project.source, project.texts, file)
        self.ask(project, number, lambda desk: find_hover_with_reasons(desk, words, offset), result)

    def definition(self, number: Any, params: Any) -> None:
        """Where the declaration stands that the name at a place means."""
        project, file, offset = self.place(params)

        def result(spot: Optional[Spot]) -> Optional[Json]:
            return None if spot is None else location_of(project, spot)

        self.ask(project, number, lambda _: find_definition(project.source, file, offset), result)

    def references(self, number: Any, params: Any) -> None:
        """The names that mean what the name at a place means."""
        project, file, offset = self.place(params)
        with_declaration = part(params, bool, "context", "includeDeclaration")

        def result(found: Optional[Tuple[Spot, List[Spot]]]) -> List[Json]:
            spots = [] if found is None else ([found[0]] if with_declaration else []) + found[1]
            return [location_of(project, it) for it in spots]

        self.ask(project, number, lambda _: find_references(project.source, file, offset), result)

    def highlight(self, number: Any, params: Any) -> None:
        """The names of the same file that mean what the name at a place means."""
        project, file, offset = self.place(params)

        def result(found: Optional[Tuple[Spot, List[Spot]]]) -> List[Json]:
            told = [] if found is None else [(found[0], WRITTEN), *((it, READ) for it in found[1])]
            return [{"range": range_of(project.texts[file], it.name), "kind": kind} for it, kind in told if it.file == file]

        self.ask(project, number, lambda _: find_references(project.source, file, offset), result)

    def prepare_rename(self, number: Any, params: Any) -> None:
        """The name at a place, which may be changed."""
        project, file, offset = self.place(params)
        word = word_at(project.source, file, offset)
        if word is None:
            raise Failure(REQUEST_FAILED, "no name stands here")
        self.editor.answer(number, {"range": range_of(project.texts[file], word.name), "placeholder": word.phrase.identifier})

    def rename(self, number: Any, params: Any) -> None:
        """Another name for what the name at a place means."""
        project, file, offset = self.place(params)
        wish = Wish(file, offset, part(params, str, "newName"))

        def result(places: Places) -> Json:
            changes = {
                project.uris[it]: [{"range": range_of(project.texts[it], span), "newText": wish.name} for span in sorted(spans)]
                for it, spans in places.items()
            }
            return {"changes": changes}

        texts = {name: it.text for name, it in project.texts.items()}
        self.ask(project, number, lambda desk: find_renaming(desk, texts, project.source, project.known, wish), result)

    def completion(self, number: Any, params: Any) -> None:
        """The names and words that may be typed at a place."""
        project, file, offset = self.place(params)

        def result(completions: Completions) -> Json:
            items = [
                {"label": it.name, "kind": WORD if not it.title else COMPLETED.get(it.kind or 0, NAME), "detail": it.title}
                for it in completions.found
            ]
            return {"isIncomplete": not completions.is_all, "items": items}

        texts = {name: it.text for name, it in project.texts.items()}
        self.ask(project, number, lambda desk: find_completions(desk, texts, project.source, file, offset), result)

    def fixes(self, number: Any, params: Any) -> None:
        """The quick fixes for the errors and warnings at a stretch."""
        project, file = self.document(params)
        text = project.texts[file]
        start, end = (text.offset(position_in(params, "range", it)) for it in ("start", "end"))
        inside = [it for it in project.problems if it.file == file and it.span.start <= end and start <= it.span.end]
        is_good = project.source.files[file].is_good

        def result(fixes: List[Fix]) -> List[Json]:
            return [fix_of(project, it) for it in fixes]

        self.ask(project, number, lambda _: find_fixes(project.source, inside if is_good else []), result)

    def symbols(self, number: Any, params: Any) -> None:
        """The declarations of a document."""
        self.editor.answer(number, symbols_of(*self.document(params)))

    def matching(self, number: Any, params: Any) -> None:
        """The declarations of all files whose names have a text in them."""
        query = part(params, str, "query")
        found = [it for project in self.workspace.projects.values() for it in matching_symbols(project, query)]
        self.editor.answer(number, found[:MOST_SYMBOLS])

    def folds(self, number: Any, params: Any) -> None:
        """The stretches of a document that can be folded."""
        self.editor.answer(number, folds_of(*self.document(params)))

    def tokens(self, number: Any, params: Any) -> None:
        """What the names of a document, or of a stretch of it, are."""
        project, file = self.document(params)
        text = project.texts[file]
        within = Span(0, len(text.text))
        if "range" in params:
            within = Span(*(text.offset(position_in(params, "range", it)) for it in ("start", "end")))

        def result(tokens: List[Token]) -> Json:
            return {"data": encoded(text, tokens)}

        self.ask(project, number, lambda _: find_tokens(project.source, file, within), result, is_patient=True)

    def ask(
        self, project: Project, number: Any, begin: Callable[[Desk], Inquiry[Any]], result: Callable[[Any], Any], is_patient: bool = False
    ) -> None:
        """Has an inquiry made, behind the check where it is patient; what it finds is answered as `result` says."""

        def answer(found: Any) -> None:
            self.editor.answer(number, result(found))

        def fail(failure: Failure) -> None:
            self.editor.fail(number, failure)

        project.requests.append(Request(number, begin, answer, fail, is_patient))

    def document(self, params: Any) -> Tuple[Project, str]:
        """The tree and the file of a request. Raises Failure where it isn't open."""
        found = self.workspace.found(uri_in(params))
        if found is None:
            raise Failure(INVALID_PARAMS, "the document isn't open here")
        return found

    def place(self, params: Any) -> Tuple[Project, str, int]:
        """The tree, the file and the place of a request. Raises Failure."""
        project, file = self.document(params)
        return project, file, project.texts[file].offset(position_in(params, "position"))


def fix_of(project: Project, fix: Fix) -> Json:
    """The fix as an action of the editor."""
    edit = {"range": range_of(project.texts[fix.problem.file], fix.problem.span), "newText": fix.text}
    title = f"Replace by {fix.text}: {fix.problem.text}"
    return {"title": title, "kind": "quickfix", "edit": {"changes": {project.uris[fix.problem.file]: [edit]}}}
