#!/usr/bin/env python3
"""Takes the picture of the page that the README shows.

    python3 clients/page/tests/picture.py PROGRAM FILE.png
"""
from __future__ import annotations

import json
import os
import sys
from pathlib import Path

from browser import Browser, Tab
from page_support import Served

PROBES = (("/", "errors"), ("/Kind:2/Block/Stmt:0/Init/Left", "error"), ("/Kind:2/Block/Stmt:1/Expr", "decl"), ("/Kind:2/Block/Stmt:0", "kind"))
OTHERS_EDIT = '0 insert /Kind:2/Block Stmt 0 Decl("far",-,Truth(true))'
EDITED = "/Kind:2/Block/Stmt:1/Init/Left"


def select(tab: Tab, path: str) -> None:
    """Selects a node."""
    tab.value(f"send({{do: 'reveal', path: {json.dumps(path)}}})")
    tab.until(f"document.getElementById('path')?.textContent === {json.dumps(path)}", path)


def prepare(served: Served, tab: Tab) -> None:
    """Takes probes; has another client and then this window edit."""
    tab.until("document.querySelectorAll('[role=treeitem]').length > 10 && document.getElementById('path')", "the tree")
    for count, (path, attribute) in enumerate(PROBES, 1):
        select(tab, path)
        tab.value(f"document.querySelector('[data-field=\"probe {attribute}\"]').click()")
        tab.until(f"probes.size === {count}", attribute)
    client = served.client()
    client.ask(OTHERS_EDIT)
    tab.until("document.querySelector('[data-version=\"1\"] .work')?.textContent", "the work of the other client's edit")
    select(tab, EDITED)
    tab.value("document.querySelector('#node input').focus()")
    tab.value("document.querySelector('#node input').select()")
    tab.type("xx")
    tab.key("Enter")
    tab.until("document.querySelector('[data-version=\"2\"] .work')?.textContent", "the work of the edit")
    tab.until("document.querySelectorAll('.probe.changed').length === 2", "two changed probes")
    client.close()


def main(program: str, file: str) -> None:
    """Takes the picture."""
    os.environ["ATTRD"] = str(Path(program).resolve())
    served, browser = Served(), Browser()
    try:
        tab = browser.window(served.address)
        prepare(served, tab)
        Path(file).write_bytes(tab.picture())
    finally:
        browser.close()
        served.close()


if __name__ == "__main__":
    if len(sys.argv) != 3:
        sys.exit(__doc__)
    main(*sys.argv[1:])
