"use strict";
(() => {
const data = JSON.parse(document.getElementById("data").textContent);
const lines = data.lines;
const $ = (id) => document.getElementById(id);
// What is known at the step that is shown: panel, section, item. `before` has for each step what its changes replaced.
const state = {};
const before = [];
const firsts = new Map();
// Of each member the transactions that it takes back at some step.
const everBack = data.members.map(() => new Set());
for (const [panel, section, item] of data.changes.flat()) if (panel === "txs" && item.startsWith("back ")) everBack[Number(item.slice(5))].add(section);
let at = -1;
let chosen = null;
// A list with more items than FEW is closed at first; of one that is open the newest MANY are shown at first.
const FEW = 6, MANY = 40;
const shades = { member: "", tx: "", object: "", answer: "" };
let dirty = { members: new Set(), txs: new Set(), objects: new Set(), sequence: true };

// -- state

const entries = (panel, section) => (state[panel] && state[panel][section]) || {};
const get = (panel, section, item) => entries(panel, section)[item];

function put([panel, section, item, value]) {
  const sections = (state[panel] = state[panel] || {});
  const items = (sections[section] = sections[section] || {});
  const old = items[item];
  if (value === null || value === undefined) delete items[item];
  else items[item] = value;
  touch(panel, section, item);
  return old;
}

// Notes what has to be drawn anew.
function touch(panel, section, item) {
  if (panel === "txs" || panel === "objects") dirty[panel].add(section);
  else if (panel === "committee") dirty.sequence = true;
  else {
    dirty.members.add(Number(panel));
    if (section === "objects") dirty.objects.add(item);
    if (section === "locks") dirty.objects.add(item.split("@")[0]);
    if (section === "is") dirty.sequence = true;
  }
}

function forward() {
  at += 1;
  before[at] = data.changes[at].map((it) => {
    const key = it.slice(0, 3).join("|");
    if (!firsts.has(key)) firsts.set(key, firsts.size);
    return [it[0], it[1], it[2], put(it)];
  });
}

// The entries of a section by their lines, and those of one line in the order in which they came first: however a step is reached.
function sorted(panel, section) {
  const first = (name) => firsts.get(`${panel}|${section}|${name}`);
  return Object.entries(entries(panel, section)).sort((a, b) => a[1].line - b[1].line || first(a[0]) - first(b[0]));
}

function backward() {
  for (const it of before[at].slice().reverse()) put(it);
  at -= 1;
}

// -- elements

function el(tag, given, ...inside) {
  const made = document.createElement(tag);
  for (const [key, value] of Object.entries(given || {})) {
    if (key.startsWith("on")) made.addEventListener(key.slice(2), value);
    else if (value !== false && value !== undefined) made.setAttribute(key, value === true ? "" : value);
  }
  made.append(...inside.flat(9).filter((it) => it !== null && it !== undefined && it !== ""));
  return made;
}

function fill(where, ...inside) {
  where.replaceChildren(...inside.flat(9).filter((it) => it !== null && it !== undefined && it !== ""));
}

// The marks that were made, by their kinds and letters: a copy is made faster.
const drawn = new Map();
function markOf([kind, letter]) {
  const key = `${kind} ${letter}`;
  if (!drawn.has(key)) drawn.set(key, newMark(kind, letter));
  return drawn.get(key).cloneNode(true);
}

function newMark(kind, letter) {
  const svg = document.createElementNS("http://www.w3.org/2000/svg", "svg");
  const [form, points] = data.forms[kind];
  svg.setAttribute("viewBox", "-14 -13 28 26");
  svg.setAttribute("aria-hidden", "true");
  svg.setAttribute("class", `mark ${kind}`);
  const shape = document.createElementNS(svg.namespaceURI, form === "circle" ? "circle" : "polygon");
  shape.setAttribute("class", "form");
  if (form === "circle") shape.setAttribute("r", "9");
  else shape.setAttribute("points", points);
  const text = document.createElementNS(svg.namespaceURI, "text");
  text.setAttribute("class", "letter");
  text.setAttribute("y", form === "triangle" ? "5" : "3.5");
  text.textContent = letter.length > 3 ? `${letter.slice(0, 2)}…` : letter;
  svg.append(shape, text);
  return svg;
}

const stepOf = (line) => {
  let low = 0, high = lines.length - 1;
  while (low < high) {
    const middle = (low + high + 1) >> 1;
    if (lines[middle].n <= line) low = middle;
    else high = middle - 1;
  }
  return low;
};
const toLine = (line) => el("a", { href: `#${line}`, class: "line" }, line === 0 ? "set-up" : `line ${line}`);
const named = (kind, name) => el("button", { type: "button", class: "name", "data-kind": kind, "data-name": name, onclick: () => choose(kind, name) }, name);
// A sentence, with what stands between backquotes as code.
const rich = (text) => text.split("`").map((it, place) => (place % 2 ? el("code", {}, it) : it));
const tx = (name) => (data.senders[name] === undefined ? name : named("tx", name));
const object = (name) => (placeOfObject.has(name) ? named("object", name) : name);
const version = (text) => { const [name, v] = text.split("@"); return el("span", { class: "whole" }, object(name), `@${v}`); };
const row = (names, how) => names.map((it, place) => [place ? ", " : "", how(it)]);
const isNow = (value) => value && value.line === lines[at].n && at > 0;
const item = (value, ...inside) => el("li", { class: isNow(value) ? "new" : false }, ...inside, " ", toLine(value.line));

// -- a member

function badges(m, is) {
  const found = [];
  const add = (kind, text, value) => found.push(el("span", { class: `badge ${kind} ${isNow(value) ? "new" : ""}` }, text));
  if (!data.members[m].honest) return [el("span", { class: "badge bad" }, "faulty")];
  add("plain", `epoch ${is.epoch}`);
  add(is.down ? "bad" : "good", is.down ? "down" : "up", is.down);
  if (is.halted) add("bad", `halted: fork of ${is.halted.text}`, is.halted);
  if (is.armed) add("warnd", `stops at its next record (${is.armed.text})`, is.armed);
  if (is.closed) add("plain", "closed", is.closed);
  if (is.end) add("plain", "said its End", is.end);
  if (is.ends) add("plain", is.ends.ended ? "saw the epoch end" : `Ends of ${is.ends.weight} of ${data.total} seen`, is.ends);
  return found;
}

// How many entries the sequence of an epoch has.
function lengthOf(epoch) {
  let count = 0;
  while (get("committee", "sequence", `${epoch} ${count}`)) count += 1;
  return count;
}

function placeOf(is) {
  const all = lengthOf(is.epoch);
  return `Place in the sequence of epoch ${is.epoch}: ${is.next} of ${all} ${all === 1 ? "entry" : "entries"} taken.`;
}

function votesOf(m) {
  const locks = sorted(m, "locks");
  const votes = sorted(m, "votes");
  const own = (name) => locks.filter((it) => it[1].tx === name);
  const rest = locks.filter((it) => !votes.some((vote) => vote[0] === it[1].tx));
  return votes.map(([name, vote]) => item(vote, "for ", tx(name), own(name).length ? [" locks ", row(own(name).map((it) => it[0]), version)] : ""))
    .concat(rest.map(([what, lock]) => item(lock, "locks ", version(what), " for ", tx(lock.tx))));
}

function certificatesOf(m) {
  const executed = entries(m, "executed");
  return sorted(m, "held").map(([name, held]) => {
    const wait = get(m, "waiting", name), admitted = get(m, "admitted", name), dropped = get(m, "dropped", name), stuck = get(m, "stuck", name);
    const how = dropped ? "dropped" : stuck ? `cannot be executed: ${stuck.text}` : wait ? `${wait.how}, waits for ${wait.on}` : admitted ? `admitted as entry ${admitted.entry}` : "";
    return item(dropped || stuck || wait || admitted || held, tx(name), " held", how ? `, ${how}` : "", executed[name] ? ", executed" : "");
  });
}

function executedOf(m) {
  return sorted(m, "executed").map(([name, it]) => {
    const kept = get("txs", name, `checkpoint ${m}`);
    return item(it, tx(name), ` ${it.text || "executed"}`, kept ? `, in checkpoint ${kept.n}` : ", in no checkpoint yet");
  });
}

const isTakenBack = (m) => [...everBack[m]].map((name) => [name, get("txs", name, `back ${m}`)]).filter((it) => it[1]).sort((a, b) => a[1].line - b[1].line);
const takenBackOf = (m) => isTakenBack(m).map(([name, it]) => item(it, tx(name), ` at the end of epoch ${it.epoch}`));

function checkpointsOf(m) {
  return Object.entries(entries(m, "checkpoints")).sort((a, b) => a[0] - b[0])
    .map(([n, it]) => item(it, `${n}: `, it.txs.length ? row(it.txs, tx) : "empty", it.last ? " (last of its epoch)" : ""));
}

const placeOfObject = new Map(data.objects.map((it, place) => [it, place]));
function objectsOf(m, is) {
  const silent = is.silent ? [el("li", { class: "help" }, "as far as the report says: not since ", toLine(is.silent.line))] : [];
  return silent.concat(Object.entries(entries(m, "objects")).sort((a, b) => placeOfObject.get(a[0]) - placeOfObject.get(b[0])).map(([name, it]) => {
    const told = get("objects", name, `${it.v} ${it.by}`) || {};
    return item(it, object(name), ` v${it.v} `, told.owner ? `${told.owner} ${told.content || ""}` : "", it.sure ? "" : " (or used up)");
  }));
}

const notesOf = (m) => sorted(m, "notes").map(([, it]) => item(it, it.text));
const acksOf = (m) => sorted(m, "acks").map(([name, it]) => item(it, "the effects of ", tx(name)));

// Which parts the reader opened or closed, and of which all is shown. A part that is closed is not made.
const open = new Map();
const whole = new Set();

function part(m, key, title, count, make) {
  if (!count) return "";
  const id = `${m} ${key}`, isOpen = open.has(id) ? open.get(id) : count <= FEW;
  const list = el("ul", {});
  const show = () => {
    const items = make(), cut = whole.has(id) ? 0 : Math.max(0, items.length - MANY);
    fill(list, cut ? el("li", {}, el("button", { type: "button", class: "name", onclick: () => { whole.add(id); show(); } }, `${cut} earlier ones`)) : "", items.slice(cut));
  };
  if (isOpen) show();
  const summary = el("summary", { onclick: () => { open.set(id, !made.open); if (!made.open) show(); } }, `${title} (${count})`);
  const made = el("details", { open: isOpen }, summary, list);
  return made;
}

const countOf = (m, section) => Object.keys(entries(m, section)).length;

function drawMember(m) {
  const is = entries(m, "is"), honest = data.members[m].honest;
  const locks = new Set(Object.values(entries(m, "locks")).map((it) => it.tx));
  const parts = [["votes", "Votes and locks", new Set([...locks, ...Object.keys(entries(m, "votes"))]).size, () => votesOf(m)], ["held", "Certificates held", countOf(m, "held"), () => certificatesOf(m)],
    ["executed", "Executed", countOf(m, "executed"), () => executedOf(m)], ["back", "Taken back", isTakenBack(m).length, () => takenBackOf(m)], ["checkpoints", "Checkpoints", countOf(m, "checkpoints"), () => checkpointsOf(m)],
    ["acks", "Acknowledged", countOf(m, "acks"), () => acksOf(m)], ["objects", "Objects", countOf(m, "objects"), () => objectsOf(m, is)], ["notes", "Not reported", countOf(m, "notes"), () => notesOf(m)]];
  fill(cards[m], el("h3", {}, `Member ${m}`, el("small", {}, ` stake ${data.members[m].stake} of ${data.total}`)), el("p", { class: "badges" }, badges(m, is)),
    honest ? el("p", { class: "help" }, placeOf(is)) : "", parts.map(([key, title, count, make]) => part(m, key, title, count, make)));
}

// -- transactions, objects, the sequence

const membersWith = (own, word) => Object.keys(own).filter((it) => it.startsWith(`${word} `)).map((it) => Number(it.slice(word.length + 1))).sort((a, b) => a - b);

function outcomeOf(own) {
  const executed = membersWith(own, "executed"), back = membersWith(own, "back");
  const found = [];
  if (own.final) found.push(el("strong", { class: isNow(own.final) ? "new" : false }, `final by ${own.final.by.join(" ")}`), " ", toLine(own.final.line));
  if (back.length) found.push(el("span", { class: "warnd" }, `taken back at ${back.join(" ")}`), " ", toLine(own[`back ${back[0]}`].line));
  const how = executed.length ? own[`executed ${executed[0]}`] : null;
  if (how && how.how !== "executed") found.push(how.text);
  if (!found.length) found.push(own.cert ? "certified" : membersWith(own, "vote").length ? "voted for" : own.made ? "made" : "");
  return found.map((it) => [it, " "]);
}

function cell(own, word) {
  const found = membersWith(own, word);
  return el("td", { class: found.some((it) => isNow(own[`${word} ${it}`])) ? "new" : false }, found.join(" "));
}

function drawTx(name) {
  const own = entries("txs", name), line = rows.txs.get(name), entry = sorted("txs", name).filter((it) => it[0].startsWith("entry ")).map((it) => it[1]);
  line.hidden = !own.made;
  if (!own.made) return;
  fill(line, el("th", { scope: "row" }, named("tx", name), el("small", {}, ` ${data.senders[name]}`)), cell(own, "vote"),
    el("td", { class: isNow(own.cert) ? "new" : false }, own.cert ? [`${own.cert.by.join(" ")} (${own.cert.weight}/${data.total}) `] : ""),
    el("td", { class: entry.some(isNow) ? "new" : false }, entry.map((it) => `epoch ${it.epoch} #${it.n} `)), cell(own, "executed"), cell(own, "checkpoint"), el("td", {}, outcomeOf(own)));
}

function holders(name, one) {
  return data.members.map((_, m) => m).filter((m) => { const it = get(m, "objects", name); return it && it.v === one.v && it.by === one.by; });
}

function drawObject(name) {
  const line = rows.objects.get(name), versions = Object.values(entries("objects", name)).sort((a, b) => a.v - b.v || a.line - b.line), locks = new Map();
  line.hidden = !versions.length;
  for (let m = 0; m < data.members.length; m += 1) {
    for (const [what, lock] of sorted(m, "locks")) {
      if (what.split("@")[0] === name) locks.set(`${what} ${lock.tx}`, (locks.get(`${what} ${lock.tx}`) || []).concat([[m, lock]]));
    }
  }
  fill(line, el("h3", {}, named("object", name)), el("ul", {}, versions.map((it) => {
    const by = holders(name, it);
    return el("li", { class: isNow(it) || isNow({ line: it.told }) ? "new" : false }, el("b", {}, `v${it.v}`), it.by === "?" ? "" : it.by ? [" by ", tx(it.by)] : " set-up", ` ${it.owner || ""} ${it.content || ""}`,
      el("small", { class: by.length ? false : "help" }, by.length ? ` at ${by.join(" ")}` : " nowhere now"), " ", toLine(it.line));
  })), [...locks].map(([key, who]) => el("p", { class: who.some((it) => isNow(it[1])) ? "lock new" : "lock" }, `v${key.split(" ")[0].split("@")[1]} locked at `, who.map(([m, lock]) => [`${m} (`, toLine(lock.line), ") "]), "for ", tx(key.split(" ")[1]))));
}

function drawSequence() {
  const epochs = new Map();
  for (const it of Object.values(entries("committee", "sequence"))) epochs.set(it.epoch, (epochs.get(it.epoch) || []).concat([it]));
  const last = get("committee", "is", "epoch") || 0;
  if (!epochs.has(last)) epochs.set(last, []);
  fill($("sequence"), [...epochs].sort((a, b) => a[0] - b[0]).map(([epoch, all]) => {
    const ended = get("committee", "ended", String(epoch));
    const there = data.members.map((it, m) => ({ m, is: entries(m, "is"), honest: it.honest })).filter((it) => it.honest && it.is.epoch === epoch);
    return el("div", {}, el("h3", {}, `Epoch ${epoch}`, ended ? el("small", { class: isNow(ended) ? "new" : false }, " ended ", toLine(ended.line)) : ""),
      el("ol", { class: "entries" }, all.length > MANY * 3 ? el("li", {}, `… ${all.length - MANY * 3} before these`) : "", all.sort((a, b) => a.n - b.n).slice(-MANY * 3).map((it) => el("li", { class: isNow(it) ? "new" : false, title: `line ${it.line}` }, `#${it.n} `, tx(it.what)))),
      there.length ? el("p", { class: "help" }, "Taken: ", there.map((it) => `member ${it.m} ${it.is.next} of ${all.length}`).join(", ")) : "");
  }));
}

// -- the line that is shown, and what is told of a name

function drawNow() {
  const it = lines[at];
  const said = it.said.length <= 400 ? it.said : it.said.slice(0, 400).concat([`… and ${it.said.length - 400} lines more`]);
  fill($("now"), el("h2", {}, it.n ? `Line ${it.n}` : "Set-up"), it.comment ? el("p", { class: "comment" }, it.comment) : "", el("pre", { class: "event" }, it.text),
    said.length ? el("pre", { class: "said", tabindex: 0 }, said.join("\n")) : "",
    el("ul", { class: "told" }, it.told.slice(0, 400).map(([text, hint]) => el("li", {}, rich(/[:.]$/.test(text) ? text : `${text}.`), hint ? el("small", {}, rich(` What to change: ${hint}.`)) : ""))),
    storiesAt(it.n));
}

// What is told at this line of transactions and objects.
function storiesAt(line) {
  const all = [["tx", lines[at].txs], ["object", lines[at].objects]].flatMap(([kind, names]) => names.map((name) => [kind, name, (data.stories[kind][name] || []).filter((it) => it[0] === line)]));
  const there = all.filter((it) => it[2].length);
  return there.length && line ? el("ul", { class: "about" }, there.slice(0, 40).map(([kind, name, some]) => el("li", {}, named(kind, name), ": ", some.map((it) => [rich(it[1]), " "])))) : "";
}

function drawStory() {
  const where = $("story");
  where.hidden = chosen === null;
  if (chosen === null) return;
  const [kind, name] = chosen, all = data.stories[kind][name] || [], now = lines[at].n;
  fill(where, el("h2", {}, `${kind === "tx" ? "Transaction" : "Object"} ${name} `, el("button", { type: "button", class: "close", "aria-label": "Close", onclick: () => choose(null) }, "×")),
    el("ol", {}, all.map(([line, text]) => el("li", { class: line > now ? "later" : line === now ? "new" : false }, toLine(line), " ", rich(text)))),
    all.some((it) => it[0] > now) ? el("p", { class: "help" }, "What is pale comes after this step.") : "");
  const past = where.querySelectorAll("ol > li:not(.later)");
  if (past.length) scrollTo(where.querySelector("ol"), past[past.length - 1]);
}

function choose(kind, name) {
  chosen = kind === null ? null : [kind, name];
  drawStory();
  if (chosen) $("story").scrollIntoView({ block: "nearest" });
}

// -- all together

function drawDirty() {
  for (const m of dirty.members) drawMember(m);
  for (const name of dirty.txs) if (rows.txs.has(name)) drawTx(name);
  for (const name of dirty.objects) if (rows.objects.has(name)) drawObject(name);
  if (dirty.sequence) drawSequence();
  dirty = { members: new Set(), txs: new Set(), objects: new Set(), sequence: false };
}

// What a step marked as new is so no more at the next.
function touchStep(step) {
  for (const [panel, section, item] of data.changes[step] || []) {
    touch(panel, section, item);
    const member = panel === "txs" ? /^(?:executed|checkpoint|back) (\d+)$/.exec(item) : null;
    if (member) dirty.members.add(Number(member[1]));
    if (panel === "objects") for (let m = 0; m < data.members.length; m += 1) if (get(m, "objects", section)) dirty.members.add(m);
    if (panel === "committee") for (let m = 0; m < data.members.length; m += 1) dirty.members.add(m);
  }
}

// What is marked as the step that is shown, in the list and in the timeline.
let current = [];
function drawPlace() {
  const matching = shown.length === lines.length ? "" : ` · ${shown.indexOf(at) + 1 || "–"} of ${shown.length} shown`;
  $("slider").value = at;
  $("slider").setAttribute("aria-valuetext", lines[at].n ? `line ${lines[at].n}` : "set-up");
  $("where").textContent = `${lines[at].n ? `line ${lines[at].n}` : "set-up"} · step ${at} of ${lines.length - 1}${matching}`;
  for (const it of current) it.classList.remove("current");
  current = [lineRows[at].firstChild, ...(marks.get(lines[at].n) || [])];
  for (const it of current) it.classList.add("current");
  keepInSight();
}

// Scrolls a list so that an item of it is in sight, and nothing else.
function scrollTo(list, line) {
  const box = line.getBoundingClientRect(), room = list.getBoundingClientRect();
  if (box.top < room.top || box.bottom > room.bottom) list.scrollTop += box.top - room.top - room.height / 3;
}

// Shows where the step stands in the list and in the timeline.
function keepInSight() {
  const list = $("lines"), line = lineRows[at], strip = document.querySelector("#timeline .row"), mark = (marks.get(lines[at].n) || [])[0];
  scrollTo(list, line);
  if (!mark) { if (at === 0) strip.scrollLeft = 0; return; }
  const box = mark.getBoundingClientRect(), room = strip.getBoundingClientRect(), left = room.left + strip.querySelector(".names").offsetWidth;
  if (box.left < left + 20 || box.right > room.right - 20) strip.scrollLeft += box.left - left - (room.right - left) / 3;
  if (box.top < room.top || box.bottom > room.bottom - 20) strip.scrollTop += box.top - room.top - room.height / 2;
}

function go(step, keeps) {
  const wanted = Math.max(0, Math.min(lines.length - 1, step));
  touchStep(at);
  while (at < wanted) forward();
  while (at > wanted) backward();
  touchStep(at);
  drawDirty();
  drawNow();
  drawStory();
  drawPlace();
  if (!keeps) remember();
}

function remember() {
  try { history.replaceState(null, "", `#${lines[at].n}`); } catch { location.hash = String(lines[at].n); }
}

function fromAddress() {
  const found = /^#(?:line)?(\d+)$/.exec(location.hash);
  return found ? stepOf(Number(found[1])) : null;
}

// -- steps among the lines that are shown

let shown = lines.map((_, place) => place);
function stepBy(count) {
  const after = shown.filter((it) => (count > 0 ? it > at : it < at));
  const place = count > 0 ? Math.min(count, after.length) - 1 : Math.max(after.length + count, 0);
  if (after.length) go(after[place]);
}

function matches(it) {
  return (shades.member === "" || it.members.includes(Number(shades.member))) && (shades.tx === "" || it.txs.includes(shades.tx)) &&
    (shades.object === "" || it.objects.includes(shades.object)) && (shades.answer === "" || it.answers.includes(shades.answer));
}

function narrow() {
  const all = Object.values(shades).every((it) => it === "");
  shown = lines.map((_, place) => place).filter((place) => all || (place > 0 && matches(lines[place])));
  const there = new Set(shown.map((place) => lines[place].n));
  lineRows.forEach((it, place) => { it.hidden = !all && !there.has(lines[place].n); });
  for (const [line, some] of marks) for (const it of some) it.classList.toggle("dim", !all && !there.has(line));
  cards.forEach((it, m) => { it.hidden = shades.member !== "" && Number(shades.member) !== m; });
  for (const [kind, key] of [["txs", "tx"], ["objects", "object"]]) for (const [name, it] of rows[kind]) it.classList.toggle("away", shades[key] !== "" && shades[key] !== name);
  for (const [key, kind] of [["tx", "tx"], ["object", "object"]]) if (shades[key] !== "") choose(kind, shades[key]);
  $("clear").disabled = all;
  drawPlace();
}

function showAll() {
  for (const key of Object.keys(shades)) { shades[key] = ""; $(`of-${key}`).value = ""; }
  $("search").value = "";
  search();
  choose(null);
  narrow();
}

// -- search

let found = [];
const haystack = lines.map((it) => [it.text, ...it.said, ...it.told.map((told) => told.join(" "))].join("\n").toLowerCase());

function search() {
  const wanted = $("search").value.trim().toLowerCase(), list = $("results");
  found = wanted ? lines.map((_, place) => place).filter((place) => haystack[place].includes(wanted)) : [];
  const names = wanted ? [["tx", data.txs], ["object", data.objects]].flatMap(([kind, all]) => all.filter((it) => it.toLowerCase().includes(wanted)).map((it) => [kind, it])) : [];
  list.hidden = !names.length && !found.length;
  $("matches").textContent = wanted ? `${names.length} name${names.length === 1 ? "" : "s"}, ${found.length} line${found.length === 1 ? "" : "s"}${found.length ? " (Enter: next)" : ""}` : "";
  fill(list, names.slice(0, 20).map(([kind, name]) => el("li", {}, kind === "tx" ? "transaction " : "object ", named(kind, name))),
    found.slice(0, 40).map((place) => el("li", {}, toLine(lines[place].n), " ", lines[place].n ? lines[place].text.slice(0, 90) : "set-up")), found.length > 40 ? el("li", {}, `… ${found.length - 40} more`) : "");
}

function nextFound(isBack) {
  const there = found.filter((it) => (isBack ? it < at : it > at));
  const to = isBack ? there[there.length - 1] ?? found[found.length - 1] : there[0] ?? found[0];
  if (to !== undefined) go(to);
}

// -- set up

function makeCards() {
  return data.members.map((_, m) => { const made = el("article", { class: "member", id: `member-${m}` }); $("members").append(made); return made; });
}

function makeRows(names, tag, where) {
  return new Map(names.map((name) => { const made = el(tag, { hidden: true, "data-name": name }); where.append(made); return [name, made]; }));
}

function makeLines() {
  return lines.map((it, place) => {
    const said = it.said.length ? `${it.said[0].split(": ").slice(1).join(": ")}${it.said.length > 1 ? ` +${it.said.length - 1}` : ""}` : "";
    const made = el("li", {}, el("a", { href: `#${it.n}`, onclick: (event) => { event.preventDefault(); go(place); } }, markOf(it.look), el("span", { class: "n" }, it.n || ""), el("code", {}, it.n ? it.text : "set-up"), el("span", { class: "answer" }, said)));
    $("lines").append(made);
    return made;
  });
}

function makeMarks() {
  const made = new Map();
  for (const it of document.querySelectorAll("#timeline [data-line]")) {
    const line = Number(it.dataset.line);
    made.set(line, (made.get(line) || []).concat([it]));
    it.addEventListener("click", () => go(stepOf(line)));
  }
  return made;
}

function makeChoices() {
  const answers = [...new Set(lines.flatMap((it) => it.answers))].sort();
  const all = { member: data.members.map((_, m) => String(m)), tx: data.txs, object: data.objects, answer: answers };
  for (const [key, values] of Object.entries(all)) {
    $(`of-${key}`).append(el("option", { value: "" }, "all"), ...values.map((it) => el("option", { value: it }, it === "(refused)" ? "everything refused" : it)));
    $(`of-${key}`).addEventListener("change", (event) => { shades[key] = event.target.value; narrow(); });
  }
}

function onKey(event) {
  const tag = event.target.tagName, isText = tag === "SELECT" || tag === "TEXTAREA" || (tag === "INPUT" && event.target.type !== "range");
  if (event.key === "Escape") { showAll(); event.target.blur(); return; }
  if (isText || event.ctrlKey || event.metaKey || event.altKey) return;
  const moves = { ArrowLeft: () => stepBy(-1), ArrowRight: () => stepBy(1), PageUp: () => stepBy(-10), PageDown: () => stepBy(10), Home: () => go(shown[0] ?? 0), End: () => go(shown[shown.length - 1] ?? 0), "/": () => $("search").focus() };
  if (!moves[event.key]) return;
  event.preventDefault();
  moves[event.key]();
}

const cards = makeCards();
const rows = { txs: makeRows(data.txs, "tr", document.querySelector("#txs tbody")), objects: makeRows(data.objects, "article", $("objects")) };
const lineRows = makeLines();
const marks = makeMarks();
makeChoices();
$("slider").max = lines.length - 1;
$("counts").textContent = [[data.members.length, "member"], [data.txs.length, "transaction"], [lines.length - 1, "step"]].map(([count, word]) => `${count} ${word}${count === 1 ? "" : "s"}`).join(", ");
$("clear").disabled = true;
$("slider").addEventListener("input", (event) => go(Number(event.target.value)));
for (const [id, act] of Object.entries({ first: () => go(shown[0] ?? 0), back: () => stepBy(-1), next: () => stepBy(1), last: () => go(shown[shown.length - 1] ?? 0), clear: showAll })) $(id).addEventListener("click", act);
$("search").addEventListener("input", search);
$("search").addEventListener("keydown", (event) => { if (event.key === "Enter") { event.preventDefault(); nextFound(event.shiftKey); } });
document.addEventListener("keydown", onKey);
window.addEventListener("hashchange", () => { const step = fromAddress(); if (step !== null && step !== at) go(step, true); });
$("filters").open = window.innerWidth > 900;
for (let m = 0; m < cards.length; m += 1) dirty.members.add(m);
go(fromAddress() ?? 0, fromAddress() === null);
})();
