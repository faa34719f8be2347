"""The page in Chromium: probes that follow their nodes, windows that see each other's edits, keys alone."""
from __future__ import annotations

import json
import unittest
from typing import Any

from at_length import at_length
from browser import ALT, CONTROL, Browser, Tab
from page_support import Served

# What a window of 1280 by 800 has for the page, in Chromium.
INNER = {"width": 1280, "height": 713}


class Windows(unittest.TestCase):
    browser: Browser

    @classmethod
    def setUpClass(cls) -> None:
        cls.browser = Browser()

    @classmethod
    def tearDownClass(cls) -> None:
        cls.browser.close()

    def setUp(self) -> None:
        self.served = Served()
        self.addCleanup(self.served.close)
        self.client = self.served.client()
        self.addCleanup(self.client.close)

    def window(self) -> Tab:
        tab = self.browser.window(self.served.address)
        self.addCleanup(tab.close)
        tab.until("document.querySelectorAll('[role=treeitem]').length > 10 && document.getElementById('path')", "the tree")
        return tab

    def select(self, tab: Tab, path: str) -> None:
        """Selects a node, as a link to it does."""
        tab.value(f"send({{do: 'reveal', path: {json.dumps(path)}}})")
        tab.until(f"document.getElementById('path')?.textContent === {json.dumps(path)}", f"{path} is selected")

    def probe(self, tab: Tab, path: str, attribute: str) -> str:
        """A new probe; the selector of its card."""
        self.select(tab, path)
        count: Any = tab.value("probes.size")
        tab.value(f"document.querySelector('[data-field=\"probe {attribute}\"]').click()")
        tab.until(f"probes.size === {count + 1}", "the probe")
        return f"[data-probe='{count + 1}']"

    def shows(self, tab: Tab, selector: str, *texts: str) -> None:
        """Waits until all these texts stand in an element."""
        quoted = json.dumps(texts)
        text = f"document.querySelector({json.dumps(selector)})?.innerText.replace(/\\s+/g, ' ')"
        tab.until(f"{quoted}.every((it) => {text}?.includes(it))", f"{texts} in {selector}")

    def test_a_probe_follows_its_node(self) -> None:
        tab = self.window()
        card = self.probe(tab, "/Kind:2/Block/Stmt:0/Init/Left", "decl")
        self.shows(tab, card, "decl()", "/Kind:2/Block/Stmt:0/Init/Left", 'Decl "x"', "/Kind:2/Field:0")
        self.client.ask('0 insert /Kind:2/Block Stmt 0 Show(Num(1))')
        self.client.ask('0 insert / Kind 0 Basic("text")')
        self.shows(tab, card, "/Kind:3/Block/Stmt:1/Init/Left", "/Kind:3/Field:0")
        self.assertNotIn("changed", tab.text(card))
        self.client.ask("0 drop /Kind:3/Block/Stmt:1")
        self.shows(tab, card, "its node is gone")

    @at_length
    def test_the_card_of_the_node_is_seen_without_scrolling(self) -> None:
        """In a window of 1280 by 800, with a node of many attributes and with probes; and it stays where the probes are scrolled."""
        tab = self.window()
        tab.call("Emulation.setDeviceMetricsOverride", deviceScaleFactor=1, mobile=False, **INNER)
        tab.until(f"innerWidth === {INNER['width']} && innerHeight === {INNER['height']}", "the window's size")
        seen = "((it) => it.top >= 0 && it.bottom <= innerHeight)(document.getElementById('card').getBoundingClientRect())"
        within = "((it) => it.scrollHeight <= it.clientHeight)(document.getElementById('card'))"
        for path in ("/", "/Kind:2/Block", "/Kind:2/Block/Stmt:0/Init/Left"):
            self.select(tab, path)
            self.assertTrue(tab.value(seen), path)
        self.assertTrue(tab.value(within), "all of it is in sight")
        for attribute in ("decl", "error", "errors", "kind"):
            self.probe(tab, "/Kind:2/Block/Stmt:0/Init/Left", attribute)
            self.probe(tab, "/Kind:3/Block/Stmt:0/Init/Left", attribute)
        tab.value("scrollTo(0, document.body.scrollHeight)")
        tab.until("scrollY > 0", "it is scrolled")
        self.assertTrue(tab.value(seen))

    def test_a_value_changes(self) -> None:
        tab = self.window()
        card = self.probe(tab, "/", "errors")
        self.shows(tab, card, "0")
        self.client.ask('0 token /Kind:2/Block/Stmt:0/Init/Left ID "q"')
        self.shows(tab, card, "1", "changed, was 0")
        tab.until("/errors.. of Program is now 1, was 0/.test(document.getElementById('live').textContent)", "what is said")
        self.shows(tab, "#edits li", "1 of 1 probes changed", "by another client", "work ")
        self.shows(tab, "#counted:not([hidden])", "counted on a copy")

    def test_a_second_window_sees_the_edit(self) -> None:
        one, two = self.window(), self.window()
        card = self.probe(two, "/", "errors")
        self.shows(two, card, "0")
        self.select(one, "/Kind:2/Block/Stmt:0/Init/Left")
        one.value("document.querySelector('[data-field=\"token ID\"]').value = 'q'")
        one.value("document.querySelector('[data-field=\"token ID\"]').form.requestSubmit()")
        self.shows(two, "#edits li", 'ID "q"', "by window")
        self.shows(two, card, "changed, was 0")
        self.shows(two, "#tree", 'Name "q"')
        self.shows(one, "#edits li", "by this window")
        self.shows(two, "#clients", "3 clients")

    @at_length
    def test_faults_and_circles_are_told_in_words(self) -> None:
        tab = self.window()
        circle = self.probe(tab, "/", "around")
        self.shows(tab, circle, "circular", "in around() of", "Program")
        text = self.probe(tab, "/", "firstName")
        self.shows(tab, text, "fault null", "in firstName() of", "Program")

    @at_length
    def test_keys_alone(self) -> None:
        tab = self.window()
        for _ in range(3):
            tab.key("Tab")
        tab.until("document.activeElement.getAttribute('role') === 'treeitem'", "the tree has the focus")
        for _ in range(3):
            tab.key("ArrowDown")
        tab.until("document.getElementById('path')?.textContent === '/Kind:2'", "the class is selected")
        tab.key("p")
        tab.until("document.activeElement.dataset.field?.startsWith('probe ')", "an attribute has the focus")
        tab.key("Enter")
        self.shows(tab, "[data-probe='1']", "error()", '""')
        tab.value("document.querySelector('#tree [tabindex=\"0\"]').focus()")
        tab.key("ArrowUp", ALT)
        self.shows(tab, "#edits li", "move /Kind:2 to / Kind 1")
        tab.until("document.getElementById('path')?.textContent === '/Kind:1'", "the node is where it was moved")
        tab.until("document.activeElement.dataset.id === String(state.focus)", "the focus went with its node")
        tab.key("e")
        tab.until("document.activeElement.dataset.field === 'token ID'", "the name has the focus")
        tab.value("document.activeElement.select()")
        tab.type("Dot")
        tab.key("Enter")
        self.shows(tab, "#edits li", 'token /Kind:1 ID "Dot"')
        tab.value("document.querySelector('.close').focus()")
        tab.key("Enter")
        tab.until("probes.size === 0 && document.activeElement.getAttribute('role') === 'treeitem'", "the probe is removed")

    def test_links_and_edits(self) -> None:
        tab = self.window()
        card = self.probe(tab, "/Kind:2/Block/Stmt:0/Init/Left", "decl")
        tab.value(f"document.querySelector({json.dumps(card + ' .answer .link')}).click()")
        tab.until("document.getElementById('path')?.textContent === '/Kind:2/Field:0'", "the link's node is selected")
        self.assertEqual(tab.value("document.activeElement.dataset.id"), tab.value("String(state.focus)"))
        tab.value("[...document.querySelectorAll('#node button')].find((it) => it.textContent === 'Remove').click()")
        self.shows(tab, card, "null", "changed, was node Decl")
        self.select(tab, "/Kind:2/Block")
        tab.value("document.querySelector('[data-field=\"term\"]').value = 'Block([Show(Nix())])'")
        tab.value("document.querySelector('[data-field=\"term\"]').form.requestSubmit()")
        self.shows(tab, "#fault", "Refused", "there is no class Nix")

    def submit(self, tab: Tab, field: str, value: str) -> None:
        """Types a value into a field of the node, and sends its form."""
        tab.value(f"document.querySelector('#node [data-field=\"{field}\"]').value = {json.dumps(value)}")
        tab.value(f"document.querySelector('#node [data-field=\"{field}\"]').form.requestSubmit()")

    @at_length
    def test_a_refusal_stands_where_one_looks(self) -> None:
        tab = self.window()
        self.select(tab, "/Kind:2/Block/Stmt:0/Init/Right")
        self.submit(tab, "token Value", "1x")
        self.shows(tab, "#fault", "Refused", "is no number")
        inside = "(() => { const it = document.getElementById('fault').getBoundingClientRect(); return it.top >= 0 && it.bottom <= innerHeight; })()"
        self.assertTrue(tab.value(inside))
        self.assertTrue(tab.value("document.getElementById('fault').previousElementSibling.dataset.tried === 'token Value'"))
        self.submit(tab, "token Value", "12")
        tab.until("document.getElementById('fault').textContent === ''", "the refusal goes")

    @at_length
    def test_probes_and_edits_stay_over_a_reload(self) -> None:
        tab = self.window()
        card = self.probe(tab, "/Kind:2/Block/Stmt:0/Init/Left", "decl")
        self.shows(tab, card, "/Kind:2/Field:0")
        self.client.ask('0 insert / Kind 0 Basic("text")')
        self.shows(tab, card, "/Kind:3/Field:0")
        tab.until("decodeURIComponent(location.hash).includes('/Kind:3/Block')", "the address has the place as it is now")
        tab.call("Page.reload")
        self.shows(tab, "[data-probe='1']", "decl()", "/Kind:3/Block/Stmt:0/Init/Left", "/Kind:3/Field:0")
        self.shows(tab, "#edits li", "insert / Kind 0", "by another client")
        tab.value("document.querySelector('.close').click()")
        tab.until("location.hash === ''", "a probe that is removed is in the address no more")

    @at_length
    def test_own_edits_are_undone(self) -> None:
        tab = self.window()
        before = self.client.ask("0 show /")
        self.select(tab, "/Kind:2/Block/Stmt:0/Init/Left")
        self.submit(tab, "token ID", "q")
        self.shows(tab, "#undo", "Undo (1)")
        self.client.ask('0 insert / Kind 0 Basic("text")')
        self.select(tab, "/Kind:3/Block/Stmt:0")
        tab.value("[...document.querySelectorAll('#node button')].find((it) => it.textContent === 'Remove').click()")
        self.shows(tab, "#undo", "Undo (2)")
        tab.value("document.getElementById('undo').click()")
        self.shows(tab, "#edits li", "insert /Kind:3/Block Stmt 0")
        tab.value("document.querySelector('#tree [tabindex=\"0\"]').focus()")
        tab.call("Input.dispatchKeyEvent", type="keyDown", key="z", modifiers=CONTROL, windowsVirtualKeyCode=90)
        self.shows(tab, "#fault", "the node that was edited is gone")
        self.client.ask("0 drop /Kind:0")
        self.assertIn('Name("q")', self.client.ask("0 show /"))
        self.assertIn('Name("x")', before)

    @at_length
    def test_all_nodes_of_a_class(self) -> None:
        tab = self.window()
        self.select(tab, "/Kind:2/Block/Stmt:0/Init/Left")
        tab.value("document.querySelector('[data-field=\"survey error\"]').click()")
        self.shows(tab, "[data-probe='1']", "error()", "all Expr", "0 of 8 not empty")
        self.client.ask('0 token /Kind:2/Block/Stmt:0/Init/Left ID "q"')
        self.shows(tab, "[data-probe='1']", "1 of 8 not empty", '"no declaration of q"', "changed, was 0 of 8")
        tab.value("document.querySelector('[data-probe=\"1\"] .rows .link').click()")
        tab.until("document.getElementById('path')?.textContent === '/Kind:2/Block/Stmt:0/Init/Left'", "the node with the error is selected")
        tab.call("Page.reload")
        self.shows(tab, "[data-probe='1']", "all Expr", "1 of 8 not empty")

    @at_length
    def test_a_probe_of_a_result(self) -> None:
        tab = self.window()
        card = self.probe(tab, "/Kind:2/Block/Stmt:0/Init/Left", "decl")
        self.shows(tab, card, "/Kind:2/Field:0")
        tab.value(f"document.querySelector({json.dumps(card + ' select')}).value = 'kind'")
        tab.value(f"document.querySelector({json.dumps(card + ' form')}).requestSubmit()")
        self.shows(tab, "[data-probe='2']", "decl().kind()", "/Kind:0")
        self.client.ask('0 token /Kind:2/Field:0/Declared ID "boolean"')
        self.shows(tab, "[data-probe='2']", "/Kind:1", "changed")
        self.client.ask("0 drop /Kind:2/Field:0")
        self.shows(tab, "[data-probe='2']", "null, so there is no kind()")

    def test_why_a_value_is_what_it_is(self) -> None:
        tab = self.window()
        card = self.probe(tab, "/Kind:3/Block/Stmt:1/Expr", "kind")
        self.shows(tab, card, "/Kind:0")
        tab.value(f"document.querySelector({json.dumps(card + ' .ask-why')}).click()")
        self.shows(tab, f"{card} .why", "Name.kind() = decl() != null ? decl().kind() : null", "types.jrag:11", "decl() = /Kind:3/Block/Stmt:0")
        tab.value(f"document.querySelectorAll({json.dumps(card + ' .why .ask-why')})[1].click()")
        self.shows(tab, f"{card} .why .why + li, {card} .why li:nth-child(2) .why", "Decl.kind()", "getInit().kind() = /Kind:0")
        tab.value(f"document.querySelector({json.dumps(card + ' .ask-why')}).click()")
        tab.until(f"!document.querySelector({json.dumps(card + ' .why')}).textContent", "it is closed again")

    @at_length
    def test_aspects_that_change_are_taken(self) -> None:
        tab = self.window()
        card = self.probe(tab, "/Kind:2/Block/Stmt:0/Init/Left", "error")
        self.client.ask('0 token /Kind:2/Block/Stmt:0/Init/Left ID "q"')
        self.shows(tab, card, "no declaration of q")
        file = self.served.folder / "errors.jrag"
        text = file.read_text("utf-8")
        file.write_text(text.replace('"no declaration of "', '"there is no "'), "utf-8")
        self.shows(tab, "[data-probe='1']", "there is no q")
        file.write_text(text.replace("getID();", "getId();"), "utf-8")
        self.shows(tab, "#refused-file", "A file was changed, and isn't taken", "errors.jrag:", "J3 unknown name")
        self.shows(tab, "[data-probe='1']", "there is no q")
        file.write_text(text, "utf-8")
        self.shows(tab, "[data-probe='1']", "no declaration of q")
        tab.until("document.getElementById('refused-file').hidden", "the refusal goes")
        again = self.served.client()
        self.addCleanup(again.close)
        self.assertIn('Name("q")', again.ask("0 show /"))

    @at_length
    def test_nothing_comes_from_elsewhere(self) -> None:
        tab = self.window()
        names = tab.value("performance.getEntriesByType('resource').map((it) => it.name)")
        self.assertGreaterEqual(len(names), 2)
        for name in names:
            self.assertTrue(name.startswith(self.served.address) or name.startswith("data:"), name)
        self.assertTrue(tab.value("[...document.querySelectorAll('input, select, textarea')].every((it) => it.labels.length || it.ariaLabel)"))
        self.assertTrue(tab.value("[...document.querySelectorAll('button')].every((it) => it.textContent.trim() || it.ariaLabel)"))

    @at_length
    def test_a_window_that_is_closed_leaves_no_marks(self) -> None:
        tab = self.browser.window(self.served.address)
        tab.until("document.getElementById('path')", "the tree")
        self.probe(tab, "/", "errors")
        watcher = self.window()
        self.shows(watcher, "#clients", "3 clients")
        tab.close()
        self.shows(watcher, "#clients", "2 clients")
        for session in range(6):
            self.assertEqual(self.client.ask(f"{session} where p1"), f"{session} refused 3 mark")

    def test_the_end_of_the_server_is_told(self) -> None:
        tab = self.window()
        self.served.process.terminate()
        self.shows(tab, "#lost", "has ended", "Start the page again")


if __name__ == "__main__":
    unittest.main()
