"""The page without a browser: who is answered, frames, windows, probes, the count of the work."""
from __future__ import annotations

import asyncio
import http.client
import json
import os
import socket
import tempfile
import time
import unittest
from pathlib import Path
from typing import Any, Dict, List, Optional
from unittest import mock

from at_length import at_length
from page_support import CLONE, SECONDS, Served, program, until

from attrd import forms_options, known_options
from attrd_page.work import Copy, count


class Page:
    """A window without a browser."""

    def __init__(self, served: Served, origin: Optional[str] = None, cookie: str = "") -> None:
        self.served, self.origin, self.cookie = served, origin, cookie
        self.path = served.address.split(str(served.port), 1)[1]
        self.stream = http.client.HTTPConnection("127.0.0.1", served.port, timeout=SECONDS)
        self.stream.request("GET", f"{self.path}events", headers=self.headers)
        self.events = self.stream.getresponse()
        self.is_open = self.events.status == 200
        self.first = self.next() if self.is_open else {}
        self.key = self.first.get("key", "")

    @property
    def headers(self) -> Dict[str, str]:
        return {**({} if self.origin is None else {"Origin": self.origin}), **({"Cookie": self.cookie} if self.cookie else {})}

    def next(self) -> Dict[str, Any]:
        """The next message. Raises EOFError where the stream has ended."""
        while True:
            line = self.events.readline()
            if not line:
                raise EOFError("the stream has ended")
            if line.startswith(b"data: "):
                message: Dict[str, Any] = json.loads(line[len(b"data: "):])
                return message

    def send(self, text: str) -> int:
        """Sends a message; the status."""
        connection = http.client.HTTPConnection("127.0.0.1", self.served.port, timeout=SECONDS)
        connection.request("POST", f"{self.path}do/{self.key}", text.encode("utf-8"), self.headers)
        status = connection.getresponse().status
        connection.close()
        return status

    def do(self, **message: Any) -> None:
        self.send(json.dumps(message))

    def told(self, kind: str) -> Dict[str, Any]:
        """The next message of this kind; others before it are passed over."""
        while True:
            message = self.next()
            if message["kind"] == kind:
                return message

    def close(self) -> None:
        """Leaves."""
        self.events.close()
        self.stream.close()

    def probe(self, path: str, attribute: str, *arguments: str) -> Dict[str, Any]:
        """A new probe of a node, as it is shown first."""
        self.do(do="reveal", path=path)
        number = self.told("detail")["detail"]["id"]
        self.do(do="probe", id=number, attribute=attribute, arguments=list(arguments))
        return self.changed()[0]

    def changed(self) -> List[Dict[str, Any]]:
        """The probes of the next round in which one changed."""
        while True:
            probes: List[Dict[str, Any]] = self.told("probes")["probes"]
            if probes:
                return probes

    def number(self, path: str) -> int:
        self.do(do="reveal", path=path)
        number: int = self.told("detail")["detail"]["id"]
        return number


class Web(unittest.TestCase):
    served: Served

    def page(self, origin: Optional[str] = None) -> Page:
        page = Page(self.served, origin)
        self.addCleanup(page.close)
        return page

    def status(self, target: str, host: Optional[str] = None, method: str = "GET") -> int:
        with socket.create_connection(("127.0.0.1", self.served.port), timeout=120) as stream:
            host = host or f"127.0.0.1:{self.served.port}"
            stream.sendall(f"{method} {target} HTTP/1.1\r\nHost: {host}\r\n\r\n".encode())
            self.head = b""
            while True:
                data = stream.recv(1 << 16)
                if not data:
                    return int(self.head.split(b" ")[1])
                self.head += data


class Unchanged(Web):
    """What changes nothing: one server for all."""

    @classmethod
    def setUpClass(cls) -> None:
        cls.served = Served()
        cls.addClassCleanup(cls.served.close)

    def test_who_is_answered(self) -> None:
        path = self.served.address.split(str(self.served.port), 1)[1]
        self.assertEqual(self.status(path), 200)
        self.assertIn(b"script-src 'self'", self.head)
        for name in ("page.css", "page.js"):
            self.assertEqual(self.status(path + name), 200)
        for target in ("/", "/page.js", "/wrong/", f"{path[:-2]}/", "//"):
            self.assertEqual(self.status(target), 403, target)
        self.assertEqual(self.status(path, host=f"elsewhere.example:{self.served.port}"), 403)
        self.assertEqual(self.status(path + "../page.py"), 404)
        self.assertEqual(self.status(path, method="POST"), 405)
        self.assertEqual(self.status(path + "do/nix"), 405)
        self.assertEqual(self.status(path + "do/nix", method="POST"), 400)
        self.assertFalse(self.page(origin="http://elsewhere.example").is_open)
        self.assertTrue(self.page(origin=f"http://127.0.0.1:{self.served.port}").is_open)

    def test_lengths_that_are_none(self) -> None:
        path = self.served.address.split(str(self.served.port), 1)[1]
        for length, status in (("", 400), ("-1", 400), ("1.0", 400), ("\xb2", 400), ("9" * 5_000, 400), (str(1 << 30), 413)):
            with socket.create_connection(("127.0.0.1", self.served.port), timeout=SECONDS) as stream:
                head = f"POST {path}do/nix HTTP/1.1\r\nHost: 127.0.0.1:{self.served.port}\r\nContent-Length: {length}\r\n\r\n"
                stream.sendall(head.encode("latin-1"))
                self.assertTrue(stream.makefile("rb").readline().startswith(b"HTTP/1.1 %d " % status), length)

    def test_it_listens_at_home_alone(self) -> None:
        with open("/proc/net/tcp", encoding="ascii") as table:
            ends = [line.split()[1] for line in table if line.split()[3] == "0A"]
        self.assertEqual([it for it in ends if it.endswith(f":{self.served.port:04X}")], [f"0100007F:{self.served.port:04X}"])

    def test_as_many_windows_as_a_browser_can_hold(self) -> None:
        self.status(self.served.address.split(str(self.served.port), 1)[1])
        cookie = next(line.split(b" ", 1)[1].split(b";")[0].decode() for line in self.head.split(b"\r\n") if line.startswith(b"Set-Cookie: "))
        pages = [Page(self.served, cookie=f"other=1; {cookie}") for _ in range(5)]
        for page in pages[1:]:
            self.addCleanup(page.close)
        self.assertEqual({it.first["kind"] for it in pages}, {"window"})
        more = Page(self.served, cookie=cookie)
        self.assertEqual(more.first["kind"], "full")
        self.assertIn("can hold 5 windows", more.first["text"])
        self.assertRaises(EOFError, more.next)
        more.close()
        self.assertEqual(self.page().first["kind"], "window")
        pages[0].close()
        pages[1].told("clients")

        def has_room() -> bool:
            again = Page(self.served, cookie=cookie)
            self.addCleanup(again.close)
            return bool(again.first["kind"] == "window")
        until(has_room, "a window of the browser more")

    def test_messages_that_cannot_be_read(self) -> None:
        page = self.page()
        for text in ("{", "[]", "1", '{"do":"nix"}', '{"do":"open"}', '{"do":"open","id":[]}', '{"do":"edit","edit":"set","id":1,"term":"X("}',
                     '{"do":"probe","id":1,"attribute":"kindNamed","arguments":[]}', '{"do":"reveal","path":"/Nix"}', "[" * 5000):
            page.send(text)
            self.assertTrue(page.told("refused")["text"], text)

    def test_the_reason_of_a_refusal(self) -> None:
        page = self.page()
        page.do(do="edit", edit="set", id=page.number("/Kind:2/Block"), term='Block([Show(Num("x"))])')
        self.assertIn('/Stmt:0/Expr/Value: "x" stands where a token of kind int is wanted', page.told("refused")["text"])
        page.do(do="edit", edit="token", id=page.number("/Kind:2/Block/Stmt:0/Init/Right"), part="Value", value="1x")
        self.assertIn("is no number", page.told("refused")["text"])


class Changed(Web):
    """What edits the tree: a server for each."""

    def setUp(self) -> None:
        self.served = Served()
        self.addCleanup(self.served.close)

    def test_answers(self) -> None:
        page = self.page()
        self.assertEqual(page.probe("/", "errors")["value"], "0")
        found = page.probe("/Kind:2/Block/Stmt:0/Init/Left", "decl")
        self.assertEqual((found["kind"], found["link"]["path"], found["link"]["label"]), ("node", "/Kind:2/Field:0", '"x"'))
        found = page.probe("/", "around")
        self.assertEqual((found["kind"], found["link"]["path"], found["in"]), ("circular", "/", "around"))
        self.assertEqual(page.probe("/", "kindNamed", 'a"b')["attribute"], 'kindNamed("a\\"b")')
        argument = page.probe("/", "oneOf", "/Kind:1")
        self.assertEqual((argument["attribute"], argument["value"]), ("oneOf(/Kind:1)", "1"))
        page.do(do="edit", edit="insert", id=page.number("/"), part="Kind", index=0, term='Basic("text")')
        self.assertIn("oneOf(/Kind:2)", [it["attribute"] for it in page.changed()])
        page.do(do="edit", edit="drop", id=page.number("/Kind:2"))
        self.assertIn("a node among its arguments is gone", [it["value"] for it in page.changed()])

    def test_an_edit_goes_to_its_node(self) -> None:
        """A window that has not seen the last edit names the node by its number, and no other node is meant."""
        page, client = self.page(), self.served.client()
        number = page.number("/Kind:1")
        client.send(*[f'0 insert / Kind 0 Basic("k{it}")' for it in range(20)])
        page.do(do="edit", edit="token", id=number, part="ID", value="renamed")
        self.assertTrue(page.told("accepted"))
        self.assertTrue(all(" ok " in client.reply() for _ in range(20)))
        self.assertEqual(client.ask("0 show /Kind:21"), '0 = Basic("renamed")')
        client.close()

    @at_length
    def test_more_probes_than_a_session_has_marks(self) -> None:
        page = self.page()
        number = page.number("/Kind:2")
        for _ in range(130):
            page.do(do="probe", id=number, attribute="errors", arguments=[])
        seen: Dict[int, str] = {}
        while len(seen) < 130:
            seen.update({it["probe"]: it["value"] for it in page.changed()})
        self.assertEqual(set(seen.values()), {"0"})
        page.do(do="edit", edit="token", id=page.number("/Kind:2/Block/Stmt:0/Init/Left"), part="ID", value="q")
        changed: Dict[int, str] = {}
        while len(changed) < 130:
            changed.update({it["probe"]: it["value"] for it in page.changed()})
        self.assertEqual(set(changed.values()), {"1"})


class Options(unittest.TestCase):
    @at_length
    def test_a_program_that_runs_long_keeps_no_more_than_is_said(self) -> None:
        keeping = str(CLONE / "clients" / "lsp" / "tests" / "keeping.py")
        with tempfile.TemporaryDirectory(prefix="attrd-page-test-") as folder:
            noted = Path(folder) / "words"
            with mock.patch.dict(os.environ, {"ATTRD": program(), "WORDS": str(noted)}):
                for words, wanted in (((), "--work --keep 400000"), (("--keep", "7"), "--work --keep 7"),
                                      (("--keep", "7", "--forms", "circular"), "--work --keep 7 --forms circular")):
                    Served("--program", keeping, *words).close()
                    self.assertEqual(noted.read_text(), wanted)


class Sizes(unittest.TestCase):
    @unittest.skipUnless("--nodes" in known_options(program()), "the program has no option --nodes")
    @at_length
    def test_a_tree_of_more_nodes_than_the_usual_is_opened_and_edited(self) -> None:
        def files(folder: Path) -> List[str]:
            texts = {"row.ast": "Row ::= Item*;\nItem ::= <ID>;\n", "row.txt": "Row([" + ",".join(['Item("a")'] * 66_000) + "])\n",
                     "row.jrag": "aspect R { syn int Row.many() = getNumItem(); }\n"}
            for name, text in texts.items():
                (folder / name).write_text(text)
            return [str(folder / name) for name in texts]

        served = Served(files=files)
        self.addCleanup(served.close)
        client = served.client()
        self.addCleanup(client.close)
        client.send("0 ask / many()", '0 insert / Item 66000 Item("b")', "0 ask / many()")
        self.assertEqual([client.reply() for _ in range(3)], ["0 = 66000", "0 ok 1", "0 = 66001"])


class Work(unittest.TestCase):
    @at_length
    def test_a_page_that_ends_while_it_counts(self) -> None:
        """Whenever that is: while a copy begins, runs or has ended."""
        for wait in (0.0, 0.01, 0.02, 0.03, 0.05, 0.1):
            served = Served()
            page = Page(served)
            page.probe("/", "errors")
            page.do(do="edit", edit="token", id=page.number("/Kind:2/Block/Stmt:0/Init/Left"), part="ID", value="q")
            page.told("edited")
            time.sleep(wait)
            self.assertIn("work", served.close())
            page.close()

    def test_the_work_of_an_edit(self) -> None:
        """The number in a sum is another one: its value and the sum's are found again, and no other."""
        folder = CLONE / "samples" / "calculator"
        term = (folder / "tree.txt").read_text("utf-8")
        question = "0 ask $p value()"
        copy = Copy(1, term, ["0 mark p /Block/Stmt:1/Expr"], [question], "token /Block/Stmt:1/Expr/Right Value 5")
        found = asyncio.run(count([program()], str(folder / "calc.ast"), [str(folder / "calc.jrag")], copy, set()))
        self.assertEqual(found, 2)

    def test_the_work_of_an_edit_where_attributes_are_circular(self) -> None:
        copy = Copy(1, "A(true)\n", [], ["0 ask / on()"], "token / On false")
        with tempfile.TemporaryDirectory(prefix="attrd-page-test-") as name:
            grammar, aspects = Path(name) / "a.ast", Path(name) / "a.jrag"
            grammar.write_text("A ::= <On:boolean>;\n")
            aspects.write_text("aspect O { syn boolean A.on() circular [false] = on() || getOn(); }\n")
            words = [program(), *forms_options("circular")]
            self.assertEqual(asyncio.run(count(words, str(grammar), [str(aspects)], copy, set())), 1)
            self.assertIsNone(asyncio.run(count(words[:1], str(grammar), [str(aspects)], copy, set())))


if __name__ == "__main__":
    unittest.main()
