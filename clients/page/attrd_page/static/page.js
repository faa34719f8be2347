"use strict";
// A window of the page: it shows what the hub tells of the tree and of its probes, and sends what the user does.

const by = (id) => document.getElementById(id);
const nodes = new Map();      // number of a node -> the rows below it, of those that were opened once
const rows = new Map();       // number of a node -> its row
const probes = new Map();     // number of a probe -> its card
const open = new Set();
const state = {rootNode: null, focus: 0, at: 0, detail: null, detailText: "", roundVersion: -1, isTermOpen: false, key: "", tried: "", isFromSource: false, sending: Promise.resolve()};
const specs = new Map();      // number of a probe -> what makes it again

function make(name, properties = {}, ...children) {
  const element = document.createElement(name);
  for (const [key, value] of Object.entries(properties)) {
    if (key.startsWith("on")) element.addEventListener(key.slice(2), value);
    else if (key in element && key !== "list") element[key] = value;
    else element.setAttribute(key, value);
  }
  element.append(...children.filter((it) => it !== null));
  return element;
}

// One thing after the other: each waits until the one before is done.
function send(message) {
  state.sending = state.sending.then(async () => {
    try {
      await fetch(`do/${state.key}`, {method: "POST", body: JSON.stringify(message)});
    } catch {
      lose("The page's program has ended");
    }
  });
}

function say(text) { by("live").textContent = text; }

// A refusal is told beside what was tried: behind its form, in its card, or below the path of the node.
function fault(text) {
  by("fault").textContent = text ? `Refused: ${text}` : "";
  placeFault();
  if (text) by("fault").scrollIntoView({block: "nearest"});
}

function placeFault() {
  const tried = state.tried && document.querySelector(`[data-tried="${CSS.escape(state.tried)}"]`);
  const where = by("node").querySelector(".where");
  if (tried) (tried.closest("details:not([open])") || tried).after(by("fault"));
  else if (where) where.after(by("fault"));
  else by("node").after(by("fault"));
}

function trying(what) {
  state.tried = what;
  fault("");
}

const milliseconds = (value) => `${value < 10 ? value.toFixed(1) : Math.round(value)} ms`;
const named = (node) => node.label ? `${node.class} ${node.label}` : node.class;

// The tree.

function shownRows() {
  const found = [];
  const walk = (node, step, depth, above, place, size) => {
    const isOpen = !node.leaf && open.has(node.id) && nodes.has(node.id);
    found.push({node, step, depth, above, place, size, isOpen});
    if (!isOpen) return;
    const parts = nodes.get(node.id).parts;
    const count = parts.reduce((sum, it) => sum + (it.list ? it.count : 1), 0);
    let at = 0;
    for (const part of parts) {
      if (part.child) walk(part.child, part.name, depth + 1, node.id, ++at, count);
      for (const [index, it] of (part.list || []).entries()) walk(it, `${part.name}:${index}`, depth + 1, node.id, ++at, count);
      if (part.list && part.list.length < part.count) {
        found.push({more: part.count - part.list.length, id: node.id, key: `more ${node.id} ${part.name}`, depth: depth + 1});
        at += part.count - part.list.length;
      }
    }
  };
  if (state.rootNode) walk(state.rootNode, "/", 1, 0, 1, 1);
  return found;
}

function newRow(key) {
  const row = make("li", {className: "row"});
  rows.set(key, row);
  return row;
}

function fillRow(row, it) {
  const sign = it.node.leaf ? "" : it.isOpen ? "▾" : "▸";
  row.dataset.id = it.node.id;
  row.setAttribute("role", "treeitem");
  row.setAttribute("aria-level", it.depth);
  row.setAttribute("aria-posinset", it.place);
  row.setAttribute("aria-setsize", it.size);
  row.setAttribute("aria-selected", it.node.id === state.focus);
  if (it.node.leaf) row.removeAttribute("aria-expanded");
  else row.setAttribute("aria-expanded", it.isOpen);
  row.tabIndex = it.node.id === state.focus ? 0 : -1;
  row.style.setProperty("--depth", it.depth - 1);
  const text = `${sign}|${it.step}|${named(it.node)}`;
  if (row.dataset.text === text) return;
  row.dataset.text = text;
  row.replaceChildren(
    make("span", {className: "sign", "aria-hidden": "true"}, sign), make("span", {className: "step"}, it.step),
    make("span", {className: "class"}, it.node.class), make("span", {className: "label"}, it.node.label));
}

function fillMore(row, it) {
  row.setAttribute("role", "none");
  row.style.setProperty("--depth", it.depth - 1);
  if (row.dataset.text === String(it.more)) return;
  row.dataset.text = String(it.more);
  row.replaceChildren(make("button", {type: "button", onclick: () => send({do: "more", id: it.id})}, `${it.more} more`));
}

function drawTree() {
  const shown = shownRows();
  const nodesShown = shown.filter((it) => it.node);
  const at = nodesShown.findIndex((it) => it.node.id === state.focus);
  const isGone = at < 0 && nodesShown.length > 0;
  if (isGone) state.focus = nodesShown[Math.min(state.at, nodesShown.length - 1)].node.id;
  else state.at = at;
  const keys = new Set();
  let before = null;
  for (const it of shown) {
    const key = it.node ? it.node.id : it.key;
    keys.add(key);
    const row = rows.get(key) || newRow(key);
    if (it.node) fillRow(row, it);
    else fillMore(row, it);
    const next = before ? before.nextSibling : by("tree").firstChild;
    const hadFocus = row === document.activeElement;
    if (row !== next) by("tree").insertBefore(row, next);
    if (hadFocus) row.focus();
    before = row;
  }
  for (const [key, row] of rows) if (!keys.has(key)) { row.remove(); rows.delete(key); }
  return isGone;
}

// A node that was replaced stays open and selected in its new form.
function follow(became) {
  if (!became) return;
  const [old, now] = became;
  if (open.has(old)) open.add(now);
  if (state.focus !== old) return;
  const hadFocus = rows.get(old) === document.activeElement;
  state.focus = now;
  drawTree();
  if (hadFocus) rows.get(now)?.focus();
}

function take(list) { for (const it of list) nodes.set(it.id, it); }

function focusRow(id, isMoved) {
  state.focus = id;
  drawTree();
  const row = rows.get(id);
  if (row && isMoved) row.focus();
  if (row) row.scrollIntoView({block: "nearest"});
  tellPlace();
  send({do: "select", id});
}

function setOpen(id, isOpen) {
  if (isOpen) open.add(id);
  else open.delete(id);
  send({do: isOpen ? "open" : "close", id});
  drawTree();
}

function reveal(node) {
  if (node.id !== null) send({do: "reveal", id: node.id});
  else send({do: "reveal", path: node.path});
}

function treeKey(event) {
  const shown = shownRows().filter((it) => it.node);
  const at = shown.findIndex((it) => it.node.id === state.focus);
  const it = shown[at];
  if (!it || event.ctrlKey || event.metaKey) return;
  const go = (index) => focusRow(shown[Math.max(0, Math.min(shown.length - 1, index))].node.id, true);
  const acts = {
    ArrowDown: () => event.altKey ? moveInList(1) : go(at + 1),
    ArrowUp: () => event.altKey ? moveInList(-1) : go(at - 1),
    ArrowRight: () => it.node.leaf ? null : it.isOpen ? go(at + 1) : setOpen(it.node.id, true),
    ArrowLeft: () => it.isOpen ? setOpen(it.node.id, false) : it.above ? focusRow(it.above, true) : null,
    Home: () => go(0),
    End: () => go(shown.length - 1),
    Enter: () => it.node.leaf ? null : setOpen(it.node.id, !it.isOpen),
    " ": () => it.node.leaf ? null : setOpen(it.node.id, !it.isOpen),
    e: () => focusIn("#node input, #node textarea, #node select"),
    p: () => focusIn("#node .attribute button"),
  };
  const act = acts[event.key];
  if (!act) return;
  event.preventDefault();
  act();
}

function focusIn(selector) {
  const found = document.querySelector(selector);
  if (found) found.focus();
}

function treeClick(event) {
  const row = event.target.closest("[role=treeitem]");
  if (!row) return;
  const id = Number(row.dataset.id);
  if (event.target.closest(".sign") && row.hasAttribute("aria-expanded")) setOpen(id, !open.has(id));
  focusRow(id, true);
}

// The selected node.

function moveInList(step) {
  const detail = state.detail;
  if (!detail || detail.id !== state.focus || detail.index === null) return;
  const index = detail.index + step;
  if (index < 0 || index >= detail.count) return;
  send({do: "edit", edit: "move", id: detail.above, part: detail.part, moved: detail.id, index});
}

function drawDetail(detail) {
  const text = JSON.stringify(detail);
  if (text === state.detailText) return;
  state.detailText = text;
  const kept = keptFields(detail);
  if (!detail || !state.detail || detail.id !== state.detail.id) trying("");
  state.detail = detail;
  by("node").after(by("fault"));
  if (!detail) {
    by("node").replaceChildren(make("p", {className: "empty"}, "Select a node in the tree."));
    return;
  }
  by("node").replaceChildren(
    make("p", {className: "where"}, make("strong", {}, detail.class), " at ", make("code", {id: "path"}, detail.path)),
    ...detail.cells.filter((it) => it.shape === "token").map((it) => tokenForm(detail, it)),
    ...detail.cells.filter((it) => it.shape === "list" || (it.shape === "optional" && !it.filled)).map((it) => newForm(detail, it)),
    ...buttons(detail), termForm(detail), attributeList(detail));
  placeFault();
  const details = by("node").querySelector("details");
  if (details) details.open = state.isTermOpen;
  for (const {key, value, hasFocus, range} of kept) {
    const field = by("node").querySelector(`[data-field="${key}"]`);
    if (!field) continue;
    if (value !== null) field.value = value;
    if (hasFocus) field.focus();
    if (hasFocus && range) field.setSelectionRange(...range);
  }
}

// What is being typed stays where the node is told anew.
function keptFields(detail) {
  if (!detail || !state.detail || detail.id !== state.detail.id) return [];
  return [...by("node").querySelectorAll("[data-field]")].map((it) => {
    const isTyped = it.dataset.told !== undefined && it.value !== it.dataset.told;
    const range = typeof it.selectionStart === "number" ? [it.selectionStart, it.selectionEnd] : null;
    return {key: it.dataset.field, value: isTyped ? it.value : null, hasFocus: it === document.activeElement, range};
  });
}

function form(name, action, ...children) {
  return make("form", {className: "line", "data-tried": name, onsubmit: (event) => { event.preventDefault(); trying(name); action(); }}, ...children);
}

function labelled(text, control) { return make("label", {}, make("span", {}, text), control); }

function tokenForm(detail, cell) {
  const field = `token ${cell.name}`;
  const control = cell.kind === "boolean"
    ? make("select", {}, ...["true", "false"].map((it) => make("option", {selected: it === cell.value}, it)))
    : make("input", {type: "text", value: cell.value, spellcheck: false, autocomplete: "off", inputMode: cell.kind === "int" ? "numeric" : "text"});
  control.dataset.field = field;
  control.dataset.told = cell.value;
  return form(field, () => send({do: "edit", edit: "token", id: detail.id, part: cell.name, value: control.value}),
    labelled(`${cell.name} (${cell.kind})`, control), make("button", {type: "submit"}, "Change"));
}

function newForm(detail, cell) {
  const term = make("input", {type: "text", value: cell.choices.length ? cell.choices[0].term : "", spellcheck: false, autocomplete: "off"});
  const choice = make("select", {onchange: () => { term.value = cell.choices[choice.selectedIndex].term; }},
    ...cell.choices.map((it) => make("option", {}, it.class)));
  const index = cell.shape === "list" ? make("input", {type: "number", min: 0, max: cell.count, value: cell.count, className: "short"}) : null;
  for (const [it, name] of [[term, "term"], [choice, "choice"], [index, "index"]]) {
    if (it) { it.dataset.field = `${name} ${cell.name}`; it.dataset.told = it.value; }
  }
  const act = () => cell.shape === "list"
    ? send({do: "edit", edit: "insert", id: detail.id, part: cell.name, index: Number(index.value), term: term.value})
    : send({do: "edit", edit: "put", id: detail.id, part: cell.name, term: term.value});
  return form(`new ${cell.name}`, act, labelled(`${cell.name} (${cell.shape === "list" ? `list of ${cell.count}` : "empty"})`, choice),
    labelled("term", term), index ? labelled("at", index) : null,
    make("button", {type: "submit"}, cell.shape === "list" ? "Insert" : "Fill"));
}

function buttons(detail) {
  const found = [];
  const add = (text, action, isOff) => found.push(make("button", {type: "button", disabled: isOff, "data-field": text, onclick: () => { trying("buttons"); action(); }}, text));
  if (detail.canDrop) add("Remove", () => send({do: "edit", edit: "drop", id: detail.id}), false);
  if (detail.index !== null) {
    add("Move up", () => moveInList(-1), detail.index === 0);
    add("Move down", () => moveInList(1), detail.index === detail.count - 1);
  }
  return found.length ? [make("p", {className: "buttons", "data-tried": "buttons"}, ...found)] : [];
}

function termForm(detail) {
  const term = make("textarea", {value: detail.term || "", rows: 3, spellcheck: false});
  term.dataset.field = "term";
  term.dataset.told = detail.term || "";
  return make("details", {ontoggle: (event) => { state.isTermOpen = event.target.open; }},
    make("summary", {"data-field": "summary"}, "Its term"),
    detail.term === null ? make("p", {className: "empty"}, "The term is long, and isn't shown.") : null,
    form("term", () => send({do: "edit", edit: "set", id: detail.id, term: term.value}), labelled("term", term), make("button", {type: "submit"}, "Replace")));
}

function attributeList(detail) {
  if (!detail.attributes.length) return make("p", {className: "empty"}, "Its class has no attributes.");
  return make("div", {className: "attributes"}, make("h3", {}, "Attributes"), ...detail.attributes.map((it) => attributeForm(detail, it)));
}

function attributeForm(detail, it) {
  const fields = it.parameters.map((kind, at) => make("input", {
    type: "text", placeholder: kind === "String" ? "text" : "path, or null", "aria-label": `${it.name}, argument ${at + 1} (${kind})`,
    spellcheck: false, autocomplete: "off", "data-field": `argument ${it.name} ${at}`, "data-told": ""}));
  const told = [it.kind, it.inherited ? "inherited" : "", it.lazy ? "lazy" : ""].filter((word) => word).join(", ");
  const act = () => send({do: "probe", id: detail.id, attribute: it.name, arguments: fields.map((field) => field.value)});
  const line = form(`probe ${it.name}`, act, make("button", {type: "submit", "data-field": `probe ${it.name}`, "aria-label": `Probe ${it.name}`}, "Probe"),
    make("code", {}, `${it.name}(${it.parameters.join(", ")})`), make("span", {className: "kind"}, told), ...fields,
    fields.length ? null : make("button", {type: "button", className: "survey", "data-field": `survey ${it.name}`, "aria-label": `Ask ${it.name} of all nodes of a class`,
      onclick: () => { trying(`probe ${it.name}`); send({do: "survey", of: it.of, attribute: it.name}); }}, `All ${it.of}`));
  line.className = "attribute";
  return line;
}

// The source text: the cursor selects the node that stands there, and what is typed goes to the tree.

const source = {places: [], isCurrent: false, fault: "", timer: 0, typed: ""};
const TYPING_MILLISECONDS = 250;

function drawSource(told) {
  by("source").hidden = false;
  if (told.text !== null) by("source-text").value = told.text;
  Object.assign(source, {places: told.places, isCurrent: told.isCurrent, fault: told.fault});
  source.typed = by("source-text").value;
  tellPlace();
}

function tellPlace() {
  const place = source.places.find(([id]) => id === state.focus);
  const text = place ? by("source-text").value.slice(place[1], place[2]).trim().split("\n")[0].slice(0, 80) : "";
  by("source-state").textContent = source.fault ? `This can't be read: ${source.fault}`
    : !source.isCurrent ? "The tree was edited, and is that of this text no more, until the text is changed."
    : text ? `The selected node: ${text}` : "The selected node stands nowhere in the text.";
}

function sourceCursor() {
  const at = by("source-text").selectionStart;
  const found = source.places.filter(([, start, end]) => start <= at && at <= end).sort((a, b) => (a[2] - a[1]) - (b[2] - b[1]))[0];
  if (!found || found[0] === state.focus || source.typed !== by("source-text").value) return;
  state.isFromSource = true;
  send({do: "reveal", id: found[0]});
}

function sourceTyped() {
  clearTimeout(source.timer);
  source.timer = setTimeout(() => send({do: "source", text: by("source-text").value}), TYPING_MILLISECONDS);
}

// Probes.

function link(node) {
  return make("button", {type: "button", className: "link", "data-path": node.path, title: node.path, onclick: () => reveal(node)},
    make("span", {className: "class"}, node.class), node.label ? make("span", {className: "label"}, ` ${node.label}`) : null,
    make("code", {}, node.path));
}

const SIGNS = {survey: "Σ", value: "=", node: "→", fault: "!", circular: "↻", gone: "×", refused: "!"};

function answerOf(it) {
  const sign = make("span", {className: "sign", "aria-hidden": "true"}, SIGNS[it.kind]);
  if (it.kind === "node") return [sign, link(it.link), ...askResult(it)];
  const told = [sign, make("span", {className: "text"}, it.value)];
  return it.link ? [...told, make("span", {className: "in"}, ` in ${it.in}() of `), link(it.link)] : told;
}

// What may be asked of the node that a probe has for a result: another probe, which follows whatever the result is then.
function askResult(it) {
  if (!it.spec || !it.attributes || !it.attributes.length) return [];
  const choice = make("select", {"aria-label": `Attribute of the result of ${it.attribute}`}, ...it.attributes.map((name) => make("option", {}, name)));
  const act = () => send({do: "probe", ...it.spec, then: [...it.spec.then, choice.value]});
  return [make("form", {className: "then", onsubmit: (event) => { event.preventDefault(); trying(`card ${it.probe}`); act(); }}, choice,
    make("button", {type: "submit", "aria-label": `Probe the result of ${it.attribute}`}, "Probe its"))];
}

function rowsOf(it) {
  if (!it.rows) return [];
  return [make("ul", {className: "rows"}, ...it.rows.map((row) => make("li", {}, link(row.node), make("code", {}, row.value))))];
}

// Why a value is what it is: the equation, and a line for each attribute that it asked, which may be asked about in its turn.

let whyCount = 0;

function whyButton(instance, name) {
  const place = make("div", {className: "why", "data-why": ++whyCount});
  const number = whyCount;
  const ask = () => {
    if (place.childElementCount) place.replaceChildren();
    else { trying(`why ${number}`); send({do: "why", instance, to: number}); }
  };
  return [make("button", {type: "button", className: "ask-why", "data-tried": `why ${number}`, "aria-label": `Why is ${name} what it is?`, onclick: ask}, "Why?"), place];
}

function drawWhy(told) {
  const place = document.querySelector(`[data-why="${told.to}"]`);
  if (!place) return;
  const facts = [...(told.at ? [`at ${told.at}`] : []), ...told.bound];
  place.replaceChildren(
    make("p", {}, make("code", {}, `${told.head} = ${told.equation}`), " ", make("span", {className: "kind"}, told.place)),
    ...facts.map((it) => make("p", {className: "kind"}, it)),
    make("ol", {}, ...told.steps.map((it) => {
      const [button, below] = whyButton(it.instance, it.text);
      return make("li", {title: it.instance}, make("code", {}, `${it.text} ${it.answer}`), " ", button, below);
    })),
    ...(told.stopped ? [make("p", {className: "stopped"}, told.stopped)] : []));
  say(`${told.head} = ${told.equation}`);
}

function drawProbe(it) {
  let card = probes.get(it.probe);
  const isNew = !card;
  if (isNew) {
    card = make("li", {className: "probe", tabIndex: -1});
    probes.set(it.probe, card);
    by("probes").append(card);
  }
  const had = card.contains(document.activeElement) ? document.activeElement.className : null;
  card.dataset.kind = it.kind;
  card.dataset.probe = it.probe;
  const isChanged = Object.hasOwn(it, "before");
  const name = `${it.attribute}${it.of ? ` of all ${it.of}` : it.node ? ` of ${named(it.node)}` : ""}`;
  if (it.spec) specs.set(it.probe, it.spec);
  card.replaceChildren(
    make("div", {className: "head"}, make("code", {className: "attribute-name"}, it.attribute), " of ",
      it.node && it.kind !== "gone" ? link(it.node) : make("span", {className: "label"}, it.of ? `all ${it.of}` : it.node ? named(it.node) : "a node"),
      make("button", {type: "button", className: "close", "aria-label": `Remove the probe ${name}`, onclick: () => removeProbe(it.probe)}, "Remove")),
    make("div", {className: "answer", "data-tried": `card ${it.probe}`}, ...answerOf(it)), ...rowsOf(it),
    ...(it.instance && it.kind !== "gone" ? whyButton(it.instance, name) : []),
    make("p", {className: "change"}, isChanged ? `changed, was ${it.before}` : ""));
  card.classList.toggle("changed", isChanged);
  if (had !== null) (card.querySelector(`.${had.split(" ")[0]}`) || card).focus();
  by("no-probes").hidden = true;
  return isNew ? `new probe: ${name}: ${it.value}` : isChanged ? `${name} is now ${it.value}, was ${it.before}` : "";
}

function removeProbe(number) {
  const card = probes.get(number);
  const next = card && (card.nextElementSibling || card.previousElementSibling);
  send({do: "unprobe", probe: number});
  if (next && !next.hidden && next.querySelector(".close")) next.querySelector(".close").focus();
  else focusIn("#tree [tabindex='0']");
}

function drawRound(told) {
  const shown = new Set(told.probes.map((it) => it.probe));
  if (told.version !== state.roundVersion) {
    for (const [number, card] of probes) {
      if (shown.has(number)) continue;
      card.classList.remove("changed");
      card.querySelector(".change").textContent = "";
    }
  }
  state.roundVersion = told.version;
  const said = told.probes.map(drawProbe).filter((it) => it);
  remember();
  if (said.length) say(said.length > 4 ? `${said.length} probes changed` : said.join(". "));
  const changed = told.probes.filter((it) => Object.hasOwn(it, "before")).length;
  by("round").textContent = told.asked ? `${told.asked} asked at version ${told.version}, in ${milliseconds(told.milliseconds)}` : "";
  const entry = by("edits").querySelector(`[data-version="${told.version}"] .round`);
  if (entry && told.asked) entry.textContent = `${changed} of ${told.asked} probes changed, ${milliseconds(told.milliseconds)}`;
}

// The address has the probes, so that they are there again when the page is loaded anew.

function remember() {
  const kept = [...probes.keys()].map((it) => specs.get(it)).filter((it) => it);
  history.replaceState(null, "", kept.length ? `#${encodeURIComponent(JSON.stringify(kept))}` : location.pathname);
}

function askRemembered() {
  let kept = [];
  try {
    kept = JSON.parse(decodeURIComponent(location.hash.slice(1)) || "[]");
  } catch {
    fault("the address has no probes that can be read");
  }
  for (const it of Array.isArray(kept) ? kept : []) {
    send(it.survey ? {do: "survey", of: it.survey, attribute: it.attribute} : {do: "probe", ...it});
  }
}

// Edits.

const KEPT_EDITS = 100;

function drawEdit(told) {
  const entry = make("li", {value: told.version}, make("code", {}, told.line), make("span", {className: "by"}, `by ${told.by}`),
    make("span", {className: "round"}), make("span", {className: "work"}));
  entry.dataset.version = told.version;
  by("edits").prepend(entry);
  while (by("edits").children.length > KEPT_EDITS) by("edits").lastChild.remove();
  by("no-edits").hidden = true;
  by("version").textContent = `version ${told.version}`;
  if (told.by !== "this window") say(`edited by ${told.by}: version ${told.version}`);
}

function drawWork(told) {
  const entry = by("edits").querySelector(`[data-version="${told.version}"] .work`);
  if (!entry) return;
  entry.textContent = `work ${told.evaluated}`;
  by("counted").hidden = false;
  entry.title = `${told.evaluated} values of lazy attributes were evaluated anew for ${told.probes} probes, counted on a copy`;
}

// Messages of the hub.

const takes = {
  window(told) { state.key = told.key; },
  hello(told) {
    nodes.clear();
    open.clear();
    if (told.isNew) {
      by("refused-file").hidden = true;
      for (const card of probes.values()) card.remove();
      probes.clear();
      by("edits").replaceChildren();
      for (const it of told.edits) drawEdit(it);
      by("undo").disabled = true;
      state.focus = 0;
    }
    take(told.nodes);
    for (const it of told.nodes) open.add(it.id);
    state.rootNode = told.rootNode;
    state.focus = state.focus || told.root;
    by("files").textContent = told.files.join("  ");
    document.title = `Probes: ${told.files[1]}`;
    by("version").textContent = `version ${told.version}`;
    drawTree();
    send({do: "select", id: state.focus});
    if (told.isNew) askRemembered();
  },
  nodes(told) {
    take(told.nodes);
    for (const id of told.above || []) open.add(id);
    drawTree();
    if (told.reveal) focusRow(told.reveal, !state.isFromSource);
    state.isFromSource = false;
  },
  edited(told) {
    const isHere = by("tree").contains(document.activeElement) || by("node").contains(document.activeElement);
    take(told.nodes);
    state.rootNode = told.rootNode;
    follow(told.became);
    if (drawTree()) focusRow(state.focus, isHere);
    drawEdit(told);
  },
  detail(told) { drawDetail(told.detail); },
  probes(told) { drawRound(told); },
  unprobed(told) {
    const card = probes.get(told.probe);
    if (card) card.remove();
    probes.delete(told.probe);
    specs.delete(told.probe);
    remember();
    by("no-probes").hidden = probes.size > 0;
  },
  accepted() { fault(""); },
  refused(told) { fault(told.text); },
  undo(told) {
    by("undo").disabled = told.edits === 0;
    by("undo").textContent = told.edits ? `Undo (${told.edits})` : "Undo";
  },
  source(told) { drawSource(told); },
  files(told) {
    by("refused-file").hidden = false;
    by("refused-file").textContent = `A file was changed, and isn't taken; all goes on as it was.\n${told.text}`;
  },
  why(told) { drawWhy(told); },
  work(told) { drawWork(told); },
  clients(told) { by("clients").textContent = told.clients === 1 ? "1 client" : `${told.clients} clients`; },
  full(told) {
    by("lost").hidden = false;
    by("lost").textContent = told.text;
  },
  lost(told) { lose(told.text); },
};

function lose(text) {
  by("lost").hidden = false;
  if (!by("lost").textContent) by("lost").textContent = `${text}. Start the page again.`;
}

function undo() {
  trying("undo");
  send({do: "undo"});
}

function undoKey(event) {
  const isTyping = ["INPUT", "TEXTAREA", "SELECT"].includes(event.target.tagName);
  if (event.key !== "z" || !(event.ctrlKey || event.metaKey) || isTyping || by("undo").disabled) return;
  event.preventDefault();
  undo();
}

function begin() {
  for (const name of ["keyup", "click"]) by("source-text").addEventListener(name, sourceCursor);
  by("source-text").addEventListener("input", sourceTyped);
  by("undo").addEventListener("click", undo);
  document.addEventListener("keydown", undoKey);
  by("tree").addEventListener("keydown", treeKey);
  by("tree").addEventListener("click", treeClick);
  const events = new EventSource("events");
  events.addEventListener("message", (event) => {
    const told = JSON.parse(event.data);
    takes[told.kind](told);
  });
  events.addEventListener("error", () => {
    events.close();
    lose("The page's program has ended");
  });
}

begin();
