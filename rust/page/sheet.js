"use strict";
// The sheet: lines, and the value of each as it is typed.

const MOST_LINES = 500;
const MOST_PLACES = 1000;
const STORED = "bakhsney.sheet";
// A longer fraction gets no pictures.
const PICTURED_LENGTH = 400;

const rows = element("rows"), spoken = element("spoken"), keypad = element("keypad");
const mixed = element("mixed"), places = element("places"), keys = element("keys"), undo = element("undo");

let engine = null;
let current = null;
let cleared = null;

// ---- The lines

const inputs = () => [...rows.querySelectorAll(".line")];
const texts = () => inputs().map((input) => input.value);
const inputOf = (row) => row.querySelector(".line");
const lineInUse = () => inputOf(current);
const replyOf = (row) => row.querySelector(".reply");
const numberOf = (row) => [...rows.children].indexOf(row) + 1;

let made = 0;

function newRow(text) {
  made += 1;
  const row = document.createElement("li");
  const input = document.createElement("input");
  Object.assign(input, { className: "line", value: text, spellcheck: false, autocomplete: "off", autocapitalize: "off", enterKeyHint: "enter" });
  input.setAttribute("aria-describedby", `reply-${made}`);
  const reply = document.createElement("div");
  Object.assign(reply, { className: "reply", id: `reply-${made}` });
  const remove = document.createElement("button");
  Object.assign(remove, { className: "remove", type: "button", textContent: "×" });
  input.addEventListener("input", () => typed(row));
  input.addEventListener("keydown", (event) => pressed(event, row));
  input.addEventListener("paste", (event) => pasted(event, row));
  input.addEventListener("focus", () => select(row));
  input.addEventListener("blur", () => row.classList.remove("unfinished"));
  remove.addEventListener("click", () => removeRow(row));
  row.append(input, reply, remove);
  return row;
}

function nameRows() {
  [...rows.children].forEach((row, index) => {
    inputOf(row).setAttribute("aria-label", `Line ${index + 1}`);
    row.querySelector(".remove").setAttribute("aria-label", `Remove line ${index + 1}`);
    inputOf(row).inputMode = keypad.hidden ? "text" : "none";
  });
}

function setLines(lines) {
  rows.replaceChildren(...lines.slice(0, MOST_LINES).map(newRow));
  if (lines.length > MOST_LINES) {
    tell(`The page has at most ${MOST_LINES} lines, and left out the others.`);
  }
  nameRows();
  select(rows.lastElementChild);
}

function addRow(after, text = "") {
  if (rows.children.length >= MOST_LINES) {
    tell(`The page has at most ${MOST_LINES} lines.`);
    return after;
  }
  const row = newRow(text);
  after.after(row);
  nameRows();
  return row;
}

function removeRow(row) {
  const other = row.previousElementSibling ?? row.nextElementSibling ?? addRow(row);
  row.remove();
  nameRows();
  changed();
  go(other);
}

function go(row, place = inputOf(row).value.length) {
  inputOf(row).focus();
  inputOf(row).setSelectionRange(place, place);
}

function typed(row) {
  row.classList.add("unfinished");
  tell("");
  changed();
  sayLater(row);
}

function pressed(event, row) {
  const input = inputOf(row), above = row.previousElementSibling, below = row.nextElementSibling;
  if (event.isComposing) {
    return;
  }
  if (event.key === "Enter") {
    const next = below !== null && inputOf(below).value === "" ? below : addRow(row);
    say(row);
    changed();
    go(next);
  } else if (event.key === "ArrowUp" && above !== null) {
    go(above);
  } else if (event.key === "ArrowDown" && below !== null) {
    go(below);
  } else if (event.key === "Backspace" && input.value === "" && rows.children.length > 1) {
    removeRow(row);
  } else {
    return;
  }
  event.preventDefault();
}

// Puts a text of several lines into as many rows.
function pasted(event, row) {
  const lines = event.clipboardData.getData("text").replace(/\r\n?/g, "\n").replace(/\n$/, "").split("\n");
  if (lines.length === 1) {
    return;
  }
  event.preventDefault();
  const input = inputOf(row), behind = input.value.slice(input.selectionEnd);
  input.value = input.value.slice(0, input.selectionStart) + lines[0];
  let last = row;
  for (const text of lines.slice(1)) {
    last = addRow(last, text);
  }
  const end = inputOf(last).value.length;
  inputOf(last).value += behind;
  changed();
  go(last, end);
}

function select(row) {
  current?.classList.remove("current");
  current = row;
  row.classList.add("current");
  reveal(row);
  drawPictures();
}

// Scrolls to a row in use, whose answer must not be behind the keypad.
function reveal(row) {
  if (inputOf(row) === document.activeElement) {
    row.scrollIntoView({ block: "nearest" });
  }
}

// Types an example into the line in use if it is empty, and else into a new one.
function tryExample(text) {
  const row = inputOf(current).value === "" ? current : addRow(rows.lastElementChild);
  inputOf(row).value = text;
  changed();
  go(row);
}

// ---- The values

// How many places the decimals have.
function placesWanted() {
  const wanted = Math.trunc(Number(places.value));
  return Number.isFinite(wanted) ? Math.max(0, Math.min(MOST_PLACES, wanted)) : 6;
}

// Why the engine was stopped at a line, by the places and all lines down to it. Such a line is not tried again.
const stopped = new Map();

function changed() {
  compute([...texts(), ...beatLengths()].map((text) => text.replaceAll("\n", " ")), placesWanted(), rows.children.length);
  keep();
  renewLink(heldParts());
  element("examples").hidden = texts().some((text) => text !== "");
  drawNames(element("names"), texts(), lineInUse);
}

// Shows the answer of each line as soon as it is known. The lines of the sheet are first, and lengths of beats behind them.
function compute(lines, number, count) {
  const upTo = (index) => [number, ...lines.slice(0, index + 1)].join("\n");
  const reasons = lines.map((_, index) => stopped.size === 0 ? undefined : stopped.get(upTo(index)));
  const text = lines.map((line, index) => reasons[index] === undefined ? line : "").join("\n"), found = [];
  const take = (piece) => {
    const reason = reasons[found.length];
    found.push(reason === undefined ? piece.split("\t") : ["stopped", reason]);
    showRow(found.length - 1, found.at(-1));
    watch(found.length);
  };
  const done = (why) => {
    clearTimeout(watching);
    if (why !== null) {
      stopped.set(upTo(found.length), why);
      changed();
      return;
    }
    beatRows = found.slice(count);
    drawBeats();
  };
  engine.ask("lines", { call: "ratio_sheet_rows", text, number }, take, done);
  watch(0);
}

function showRow(index, fields) {
  const row = rows.children[index];
  if (row !== undefined) {
    showReply(row, fields);
  }
}

let watching = 0;

// Says of a line that it is being computed, if that takes a while.
function watch(index) {
  clearTimeout(watching);
  watching = setTimeout(() => showRow(index, ["slow"]), 1000);
}

function showReply(row, fields) {
  const shown = JSON.stringify([fields, mixed.checked, fields[0] === "refused" && inputOf(row).value]);
  if (row.shown === shown) {
    return;
  }
  row.shown = shown;
  row.fields = fields;
  const reply = replyOf(row);
  reply.replaceChildren(...partsOf(row, fields));
  inputOf(row).setAttribute("aria-invalid", ["refused", "memory", "stopped"].includes(fields[0]));
  if (row === current) {
    reveal(row);
    drawPictures();
  }
}

function partsOf(row, [kind, ...fields]) {
  switch (kind) {
    case "value": return valueParts(fields);
    case "refused": return [refusal(inputOf(row).value, fields[0])];
    case "memory": return [reasonOf("error: the memory did not suffice")];
    case "slow": return [reasonOf("this takes long: it is still being computed")];
    case "stopped": return [reasonOf(`error: ${fields[0]}`)];
    default: return [];
  }
}

// True or false, or the parts of a number. If the fields are even in number, the last one is the line as it was read.
function valueParts(fields) {
  const read = fields.length % 2 === 0 ? [readingOf(fields.at(-1))] : [];
  return [...read, ...(fields.length < 3 ? [copyButton("value", fields[0])] : numberParts(...fields))];
}

function readingOf(line) {
  const reading = document.createElement("span");
  reading.className = "reading";
  reading.textContent = `read as ${shortened(line)}`;
  return reading;
}

// The exact value and, beside a fraction, its decimal after `=` or `≈`.
function numberParts(fraction, decimal, mixedText) {
  const parts = [copyButton("value", mixed.checked ? mixedText : fraction)];
  if (fraction.includes("/")) {
    const exact = isExact(fractionOf(fraction), decimal);
    parts.push(copyButton("value decimal", exact ? decimal.replace(/\.?0+$/, "") : decimal, exact ? "=\u00a0" : "≈\u00a0"));
  }
  return parts;
}

// Whether a fraction's decimal, rounded to its places, is all of it.
function isExact({ d }, decimal) {
  return 10n ** BigInt((decimal.split(".")[1] ?? "").length) % d === 0n;
}

function copyButton(name, text, before = "") {
  const button = document.createElement("button");
  Object.assign(button, { className: name, type: "button", title: "Copy" });
  button.append(before, ...stacked(shortened(text)));
  button.setAttribute("aria-label", `${before.startsWith("≈") ? "about " : ""}${shortened(text)}, copy`);
  button.addEventListener("click", () => copy(text, `${shortened(text)} is`));
  return button;
}

function reasonOf(text) {
  return Object.assign(document.createElement("span"), { className: "reason", textContent: text });
}

// A text whose last number, if it is a fraction, is stacked: a screen reader and a copy have its slash.
function stacked(text) {
  const [, before, ...parts] = /^(.*?)(\d+)(\/)(\d+)$/.exec(text) ?? [];
  if (parts.length === 0) {
    return [text];
  }
  const stack = Object.assign(document.createElement("span"), { className: "stack" });
  stack.append(...parts.map((textContent) => Object.assign(document.createElement("span"), { textContent })));
  return [before, stack];
}

// The part of a line around the column of a reason, with a mark at the character there and a caret under it, the reason, and advice.
function refusal(text, reason) {
  const letters = [...text], at = Number(/, at column (\d+)/.exec(reason)[1]) - 1, start = Math.max(0, at - 16), end = Math.min(letters.length, at + 10);
  const before = (start > 0 ? "…" : "") + letters.slice(start, at).join("");
  const where = document.createElement("pre");
  where.className = "where";
  where.setAttribute("aria-hidden", "true");
  const mark = document.createElement("mark");
  mark.textContent = letters[at] ?? " ";
  const caret = document.createElement("b");
  caret.textContent = "^";
  where.append(before, mark, letters.slice(at + 1, end).join("") + (end < letters.length ? "…" : ""), "\n", " ".repeat([...before].length), caret);
  const box = document.createElement("div");
  box.className = at >= letters.length ? "refusal at-end" : "refusal";
  box.append(where, reasonOf(reason), adviceOn(reason, letters.slice(at).join("")));
  return box;
}

// ---- What is said

let saying = 0;

function tell(text) {
  told.textContent = text;
}

// Says the value of a line, for a screen reader.
function say(row) {
  clearTimeout(saying);
  const said = [...replyOf(row).children].map((part) => part.textContent).join(" ").replace(/\s+/g, " ");
  const reason = row.querySelector(".reason")?.textContent;
  spoken.textContent = said ? `Line ${numberOf(row)}: ${reason ?? said.replace("≈", ", about").replace(" ,", ",")}` : "";
}

function sayLater(row) {
  clearTimeout(saying);
  saying = setTimeout(() => say(row), 900);
}

// ---- What is kept: in this browser, and in a link

// What the link holds. What is as at first is left out.
function heldParts() {
  const count = placesWanted();
  return { lines: texts().join("\n"), ...(count === 6 ? {} : { places: String(count) }), ...(mixed.checked ? { mixed: "1" } : {}) };
}

// What a link holds, or null where the page's address holds no lines.
function sheetOfAddress() {
  const held = partsOfAddress();
  return held && { lines: held.lines.split("\n"), places: Number(held.places ?? 6), mixed: held.mixed === "1" };
}

function keep() {
  try {
    localStorage.setItem(STORED, JSON.stringify({ lines: texts(), places: placesWanted(), mixed: mixed.checked, keypad: !keypad.hidden }));
  } catch {
    // A browser that keeps nothing has the lines until the page is closed.
  }
}

function kept() {
  try {
    const found = JSON.parse(localStorage.getItem(STORED));
    return Array.isArray(found?.lines) && found.lines.length > 0 && found.lines.every((text) => typeof text === "string") ? found : null;
  } catch {
    return null;
  }
}

function take({ lines, places: wanted = 6, mixed: isMixed = false }) {
  places.value = Number.isInteger(wanted) ? Math.max(0, Math.min(MOST_PLACES, wanted)) : 6;
  mixed.checked = isMixed === true;
  setLines(lines);
}

function takeAddress() {
  const found = sheetOfAddress();
  if (found !== null) {
    take(found);
    changed();
  }
}

// ---- The pictures

let pictured = "";

function redrawPictures() {
  pictured = "";
  drawPictures();
  drawBeats();
}

function drawPictures() {
  const [kind, fraction, ...others] = current?.fields ?? [];
  const text = kind === "value" && others.length > 1 && fraction.length <= PICTURED_LENGTH ? fraction : "";
  if (text === pictured) {
    return;
  }
  pictured = text;
  element("pictures").hidden = text === "";
  if (text === "") {
    return;
  }
  element("pictured").replaceChildren(...stacked(shortened(text)));
  element("wholes").replaceChildren(...wholes(fractionOf(text)));
  element("ruler").replaceChildren(...ruler(fractionOf(text)));
  engine.ask("quotients", { call: "ratio_sheet_quotients", text }, (quotients) => {
    if (pictured === text) {
      element("continued").replaceChildren(...continuedFraction(fractionOf(text), quotients.split(" ").map(BigInt)));
    }
  }, () => {});
}

let beatRows = [];

const beatLengths = () => [...document.querySelectorAll(".beat")].map((input) => input.value);
const drawBeats = () => element("beats").replaceChildren(...beatParts(beatRows));

function beatParts(found) {
  const names = ["first", "second", "third"];
  const wrong = found.findIndex(([kind, text]) => kind !== "empty" && !(kind === "value" && /^[1-9]/.test(text)));
  if (wrong >= 0) {
    const [kind, reason] = found[wrong];
    return [paragraph(`The ${names[wrong]} one is no length above 0${kind === "value" ? "" : `: ${reason ?? kind}`}.`)];
  }
  const lengths = found.filter(([kind, text]) => kind === "value" && text.length <= PICTURED_LENGTH).map(([, text]) => fractionOf(text));
  return lengths.length < 2 ? [paragraph("Type two lengths, or three.")] : beats(lengths);
}

// ---- The start

function showKeypad(shown) {
  keypad.hidden = !shown;
  keys.setAttribute("aria-pressed", shown);
  document.documentElement.style.scrollPaddingBottom = `${keypad.offsetHeight}px`;
  nameRows();
}

// Begins on an empty line, behind the lines that this browser kept.
function beginLine() {
  const last = rows.lastElementChild;
  const row = inputOf(last).value === "" ? last : addRow(last);
  select(row);
  changed();
  if (!matchMedia("(pointer: coarse)").matches) {
    go(row);
  }
}

function clear() {
  cleared = texts();
  setLines([""]);
  undo.hidden = false;
  changed();
  go(rows.firstElementChild);
}

function restore() {
  setLines(cleared);
  undo.hidden = true;
  changed();
  go(rows.lastElementChild);
}

function listen() {
  mixed.addEventListener("change", changed);
  places.addEventListener("input", changed);
  keys.addEventListener("click", () => { showKeypad(keypad.hidden); keep(); });
  element("add").addEventListener("click", () => { const row = addRow(rows.lastElementChild); changed(); go(row); });
  element("clear").addEventListener("click", clear);
  undo.addEventListener("click", restore);
  document.querySelectorAll(".beat").forEach((input) => input.addEventListener("input", changed));
  document.querySelectorAll(".example").forEach((button) => button.addEventListener("click", () => tryExample(button.textContent)));
  window.addEventListener("hashchange", takeAddress);
  window.addEventListener("resize", redrawPictures);
}

async function start() {
  engine = await loadedEngine();
  const before = kept();
  drawSigns(element("signs"), lineInUse);
  take(sheetOfAddress() ?? before ?? { lines: [""] });
  showKeypad(before?.keypad ?? matchMedia("(pointer: coarse)").matches);
  for (const id of ["sheet", "meeting"]) {
    element(id).hidden = false;
  }
  element("notice").hidden = true;
  listen();
  changed();
  if (sheetOfAddress() === null) {
    beginLine();
  }
  keepPage();
}

begin(start);
