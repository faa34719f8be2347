"""The trees whose files are open in the editor: which files each has, and what the editor tells of them."""
from __future__ import annotations

import gc
from pathlib import Path
from typing import Any, Dict, Iterable, Optional, Sequence, Tuple

from attrd import AttrdError

from .editor import ERROR, Editor
from .folders import Stamp, files_in, folder_of, text_of
from .language_files import SUFFIXES, LanguageFiles, path_of
from .outline import diagnostics_of
from .params import change_in, part, uri_in
from .positions import Text
from .project import Project
from .protocol import Json
from .rpc import CANCELLED, CONTENT_MODIFIED, REQUEST_FAILED, Failure

CLOSED = Failure(CONTENT_MODIFIED, "the document was closed")


class Workspace:
    """Takes notifications about documents. Methods raise Failure where a message isn't as it should be."""

    def __init__(self, files: LanguageFiles, editor: Editor) -> None:
        self.files, self.editor = files, editor
        self.projects: Dict[str, Project] = {}
        self.stamps: Dict[str, Dict[Path, Stamp]] = {}
        self.published: Dict[str, Sequence[Json]] = {}

    @property
    def is_busy(self) -> bool:
        """Whether something is under way."""
        return any(it.is_busy for it in self.projects.values())

    def step(self) -> None:
        """One short step in each tree of which something is under way."""
        for project in list(self.projects.values()):
            if project.is_busy:
                project.step()

    def stop(self, failure: Failure) -> None:
        """Ends all that is under way."""
        for project in self.projects.values():
            project.stop(failure)

    def close_all(self) -> None:
        """Ends all programs."""
        for project in self.projects.values():
            project.drop_desk()

    # Which file belongs where

    def place(self, uri: str) -> Tuple[str, str]:
        """The name of the tree to which a document belongs, and that of its file there."""
        folder = folder_of(self.files.language, uri)
        return (uri, uri) if folder is None else (str(folder), str(path_of(uri)))

    def found(self, uri: str) -> Optional[Tuple[Project, str]]:
        """The tree of a document that is open, and the name of its file there; None where it isn't open."""
        tree, name = self.place(uri)
        project = self.projects.get(tree)
        return (project, name) if project is not None and name in project.versions else None

    # Notifications

    def open(self, params: Any) -> None:
        """A document is open now."""
        uri, text = uri_in(params), part(params, str, "textDocument", "text")
        if uri.endswith(SUFFIXES):
            self.put_language(uri, Text.of(text))
            return
        version = part(params, int, "textDocument", "version")
        tree, name = self.place(uri)
        if self.found(uri) is not None and tree == name:
            self.close(params)
        project = self.projects.get(tree)
        if project is None:
            project = self.projects[tree] = Project(self.files.reader(), self.files.start, self.publish, self.tell)
        project.versions[name] = version
        project.put(name, uri, text)
        self.refresh(tree, uri)
        # The trees of a document have no cycles: they go without the collector, which would hold up a key to look at them all.
        gc.freeze()

    def change(self, params: Any) -> None:
        """A document has other text now."""
        uri = uri_in(params)
        changes = [change_in(it) for it in part(params, list, "contentChanges")]
        path = self.files.file_of(uri)
        found = self.found(uri)
        if path in self.files.texts:
            text = self.files.texts[path]
            for it in changes:
                text = text.changed(text.changed_span(it), it.text)
            self.put_language(uri, text)
        elif found is not None:
            project, name = found
            project.change(name, part(params, int, "textDocument", "version"), changes)

    def close(self, params: Any) -> None:
        """A document isn't open any more: where others of its folder are, its text is what is on the disk."""
        uri = uri_in(params)
        path = self.files.file_of(uri)
        if path in self.files.texts:
            self.files.drop(path)
            self.restart()
        found = self.found(uri)
        if found is None:
            return
        project, name = found
        project.versions.pop(name)
        tree = self.place(uri)[0]
        if project.versions:
            self.stamps[tree].pop(Path(name), None)
            self.refresh(tree, uri)
        else:
            self.close_project(tree)

    def close_project(self, tree: str) -> None:
        """No file of a tree is open any more: what was told of all of them goes."""
        project = self.projects.pop(tree)
        self.stamps.pop(tree, None)
        project.give_up(CLOSED)
        project.drop_desk()
        for uri in project.uris.values():
            if self.published.pop(uri, []) or len(project.uris) == 1:
                self.editor.publish(uri, None, [])

    def watched(self, params: Any) -> None:
        """Files were written: those of a folder that aren't open are read again."""
        for it in part(params, list, "changes"):
            uri = part(it, str, "uri")
            tree = self.place(uri)[0]
            if tree in self.projects:
                self.refresh(tree, uri)

    def refresh(self, tree: str, uri: str) -> None:
        """Takes the files of a folder as they are on the disk, but for those that are open."""
        folder = folder_of(self.files.language, uri)
        if folder is None:
            return
        project, known, there = self.projects[tree], self.stamps.get(tree, {}), files_in(folder, self.files.language)
        self.stamps[tree] = there
        for path, stamp in there.items():
            text = None if str(path) in project.versions or known.get(path) == stamp else text_of(path)
            if text is not None:
                project.put(str(path), project.uris.get(str(path), path.as_uri()), text)
        for name in [it for it in project.texts if it not in project.versions and Path(it) not in there]:
            self.editor.publish(project.uris.pop(name), None, [])
            project.remove(name)

    def cancel(self, params: Any) -> None:
        """A request isn't wanted any more."""
        number = params.get("id") if isinstance(params, dict) else None
        for project in self.projects.values():
            project.cancel(number, Failure(CANCELLED, "the request was cancelled"))

    # The language

    def put_language(self, uri: str, text: Text) -> None:
        """A file of the language has this text in the editor. Files of other languages aren't looked at."""
        path = self.files.file_of(uri)
        if path is not None:
            self.files.put(path, uri, text)
            self.restart()

    def restart(self) -> None:
        """Goes on with the language as its files are now. Where one is refused, its fault is shown, and what was goes on."""
        try:
            accepted = self.files.are_accepted()
        except AttrdError as fault:
            raise Failure(REQUEST_FAILED, str(fault)) from fault
        reader = self.files.reader()
        for project in self.projects.values() if accepted else ():
            if project.source.reader is not reader:
                project.read_anew(reader)
            project.restart()

    # What is told

    def publish(self, project: Project, names: Iterable[str]) -> None:
        """Has shown what there is to tell of these files; of those that aren't open where it is something else than was told."""
        for name in names:
            uri, told = project.uris[name], diagnostics_of(project, name)
            if name in project.versions or told != self.published.get(uri, []):
                self.editor.publish(uri, project.versions.get(name), told)
            self.published[uri] = told

    def tell(self, text: str) -> None:
        """Has a message shown."""
        self.editor.show(ERROR, text)
