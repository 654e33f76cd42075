"use strict";
/* The page: files that are dropped or made, and the glyphs of one of them. The calls run in a worker, one at a time. */

const place = (id) => document.getElementById(id);
const plain = (data) => new TextDecoder("latin1").decode(data);
const MODULE_BYTES = typeof MODULE === "string" ? Uint8Array.from(atob(MODULE), (letter) => letter.charCodeAt(0)) : null;
const BLOCK = 100, STOPPED = "stopped";
/* A call that takes longer, in milliseconds, is told of while it runs. */
const LONG = 300;

function say(text) {
  place("status").textContent = text;
}

function made(kind, more, ...inside) {
  const element = Object.assign(document.createElement(kind), more);
  element.append(...inside);
  return element;
}

/* The rows of the man page by the texts of refusals: what this one means, and what to do. */
function advice(text) {
  const shown = text.replace(", used by ", " used by ");
  for (const [row, about] of Object.entries(REFUSALS)) {
    const shape = row.replace(/[.*+?^${}()|[\]\\]/g, "\\$&").replace(/\bNAME\b/g, "\\S+").replace(/\b(PART|WHAT)\b/, ".+").replace(/\bN\b/, "\\d+");
    if (new RegExp(`^${shape}$`).test(shown)) return about;
  }
  return "";
}

/* The worker */

let worker, source, asked = null, serial = 0;
const waiting = [];

function start() {
  source ??= URL.createObjectURL(new Blob([`"use strict";\n${library}\n(${work})();`], { type: "text/javascript" }));
  worker = new Worker(source);
  worker.onmessage = ({ data }) => answered(data);
  worker.onerror = (event) => answered({ id: asked ? asked.id : 0, fault: { text: event.message || "the worker stopped" } });
  worker.postMessage({ id: 0, name: "module", words: [MODULE_BYTES] });
}

/* What a call answers; `about` is told while it runs. A drawing waits for all that was asked for otherwise, and is left out once nobody
 * sees it. */
function ask(about, name, words, isSeen = null) {
  return new Promise((give, refuse) => {
    waiting.push({ id: ++serial, about, name, words, isSeen, give, refuse });
    next();
  });
}

function next() {
  if (asked || !waiting.length) return;
  const first = waiting.findIndex((it) => !it.isSeen);
  const [question] = waiting.splice(first < 0 ? waiting.length - 1 : first, 1);
  if (question.isSeen && !question.isSeen()) {
    question.refuse({ text: STOPPED });
    return next();
  }
  asked = question;
  question.timer = setTimeout(() => {
    place("stop").disabled = false;
    if (!question.isSeen) say(`Working: ${question.about}`);
  }, LONG);
  worker.postMessage({ id: question.id, name: question.name, words: question.words });
}

function answered({ id, answer, fault }) {
  if (id === 0 && fault) say(`This browser can't run the module: ${fault.text}`);
  if (!asked || asked.id !== id) return;
  const question = asked;
  finish();
  if (fault) question.refuse(fault);
  else question.give(answer);
  next();
}

function finish() {
  clearTimeout(asked.timer);
  place("stop").disabled = true;
  asked = null;
}

/* Ends the call that runs, and forgets those that wait. */
function stop() {
  worker.terminate();
  const dropped = [...(asked ? [asked] : []), ...waiting.splice(0)];
  if (asked) finish();
  start();
  dropped.forEach((question) => question.refuse({ text: STOPPED }));
  say("Stopped.");
}

/* The files */

const files = [];
let shownFile = null;

const isMarked = (file) => file.box.checked;
const formNumber = () => Number(document.querySelector("input[name=form]:checked").value);
const formName = () => formNumber() ? "pfb" : "pfa";
const stem = (name) => name.replace(/\.(pfa|pfb|t1|ps|eps)$/i, "");
const sizeOf = (data) => `${data.length.toLocaleString("en")} bytes`;

/* A name that no file has yet. */
function unused(name) {
  const [, front, back] = /^(.*?)(\.\w+)?$/.exec(name);
  let found = name;
  for (let at = 2; files.some((file) => file.name === found); at++) found = `${front}-${at}${back || ""}`;
  return found;
}

function refusalOf(fault, names = []) {
  if (fault.text === STOPPED) return STOPPED;
  const named = fault.input >= 0 && names.length > 1 ? ` (${names[fault.input]})` : "";
  return fault.number === undefined ? `failed: ${fault.text}` : `refused: ${fault.text}${named}`;
}

/* Makes a file, and tells what the library says of it. `note` says where it comes from. */
async function add(name, data, note = "") {
  const file = { name: unused(name), data, note, url: URL.createObjectURL(new Blob([data], { type: "application/octet-stream" })) };
  files.push(file);
  list(file);
  try {
    await look(file);
  } catch (fault) {
    file.kind = "refused";
    file.said = refusalOf(fault);
    file.advice = advice(fault.text);
  }
  describe(file);
  return file;
}

/* Whether a file is a document or a font. A document may hold fonts, and seldom is one. */
async function look(file) {
  if (plain(file.data.subarray(0, 2)) === "%!") {
    const lines = plain(await ask(`the fonts in ${file.name}`, "fonts", [[file.data]])).trimEnd().split("\n");
    if (!lines.at(-1).startsWith("0 places") || plain(file.data.subarray(0, 11)) === "%!PS-Adobe-") {
      Object.assign(file, { kind: "document", said: `a PostScript document: ${lines.at(-1)}`, fonts: lines.slice(0, -1) });
      return;
    }
  }
  file.said = plain(await ask(`check ${file.name}`, "check", [file.data])).trim();
  file.kind = "font";
}

/* The row of a file. What is known later is put into it by `describe`. */
function list(file) {
  file.box = made("input", { type: "checkbox", checked: true, onchange: marked });
  const link = made("a", { href: file.url, download: file.name, className: "button", textContent: "Download" });
  link.setAttribute("aria-label", `Download ${file.name}`);
  file.buttons = made("span", { className: "row" });
  file.about = made("p", { textContent: "…" });
  file.row = made("li", {}, made("div", { className: "row" },
    made("label", { className: "name" }, file.box, ` ${file.name}`), made("span", { textContent: sizeOf(file.data) }), file.buttons, link,
    button("Remove", file, () => remove(file))), file.about);
  if (file.note) file.row.append(made("p", { textContent: file.note }));
  place("files").append(file.row);
}

function button(text, file, onclick) {
  const it = made("button", { type: "button", textContent: text, onclick });
  it.setAttribute("aria-label", `${text}: ${file.name}`);
  return it;
}

/* What is said of a file, and what can be done with it. */
function describe(file) {
  const isRefused = file.kind === "refused";
  file.about.textContent = file.said;
  file.about.className = isRefused ? "refused" : "";
  if (file.advice) file.about.after(made("p", { textContent: file.advice }));
  if (file.kind === "font") {
    file.buttons.append(button("Show glyphs", file, () => show(file)), button("Write again", file, () => convert(file)));
  }
  if (file.kind !== "document") file.buttons.append(button("Mend", file, () => mend(file)));
  else file.row.append(placesIn(file));
  if (isRefused) file.box.checked = false;
  marked();
  say(`${file.name}: ${file.said}`);
}

/* The fonts of a document: a line for each place, and a button for each name. */
function placesIn(file) {
  const lines = file.fonts.map((line) => line.replace(/^0: /, ""));
  const names = [...new Set(lines.map((line) => line.split(" ")[1]))];
  const taken = names.map((name) => button(`Take out ${name}`, file, () => extract(file, name)));
  return made("details", {}, made("summary", { textContent: "Its fonts, each with its offset, name, glyphs and depth" }),
    made("pre", { tabIndex: 0, textContent: lines.join("\n") }), made("p", { className: "row" }, ...taken));
}

function remove(file) {
  URL.revokeObjectURL(file.url);
  files.splice(files.indexOf(file), 1);
  const neighbour = file.row.nextElementSibling || file.row.previousElementSibling;
  file.row.remove();
  if (shownFile === file) place("font").hidden = true;
  marked();
  say(`${file.name} is removed.`);
  (neighbour?.querySelector("input") || place("choose")).focus();
}

/* Which of the commands over several files can be asked for. */
function marked() {
  const counts = (kind) => files.filter((file) => file.kind === kind && isMarked(file)).length;
  const fonts = counts("font") + files.filter((file) => file.kind === "refused" && isMarked(file)).length;
  place("merge").disabled = place("rejoin").disabled = fonts < 1;
  place("diff").disabled = fonts !== 2;
  place("pool").disabled = place("level").disabled = counts("document") < 1;
}

/* The commands */

/* Makes a file of what a call answers; a refusal is told with what to do. */
async function make(about, name, words, named, note, names) {
  try {
    const answer = await ask(about, name, words);
    const file = await add(named, answer, note);
    say(`${file.name}, ${sizeOf(file.data)}: ${file.said}`);
    return file;
  } catch (fault) {
    say(`${about} ${refusalOf(fault, names)}. ${advice(fault.text)}`);
    return null;
  }
}

const chosenFiles = (...kinds) => files.filter((file) => isMarked(file) && kinds.includes(file.kind));

function together(name, title) {
  const fonts = chosenFiles("font", "refused"), names = fonts.map((file) => file.name);
  const all = names.join(", "), words = [fonts.map((file) => file.data), formNumber()];
  return make(`${name} of ${all}`, name, words, `${title}.${formName()}`, `${title} of ${all}`, names);
}

const convert = (file) => make(`writing ${file.name}`, "convert", [file.data, formNumber()], `${stem(file.name)}.${formName()}`, `${file.name}, written again`);

async function mend(file) {
  try {
    const mends = plain(await ask(`mend ${file.name}`, "mends", [file.data])).trim().split("\n").join(", ");
    await make(`mend ${file.name}`, "mend", [file.data, formNumber()], `${stem(file.name)}-mended.${formName()}`, mends || "nothing was to be mended");
  } catch (fault) {
    say(`mend ${file.name} ${refusalOf(fault)}. ${advice(fault.text)}`);
  }
}

async function compare() {
  const [one, other] = chosenFiles("font", "refused"), out = place("differences");
  try {
    const lines = plain(await ask("comparing", "diff", [one.data, other.data]));
    out.textContent = lines;
    out.hidden = !lines;
    say(lines ? `${one.name} and ${other.name} don't merge: ${lines.trim().split("\n").length} conflicts.` : `${one.name} and ${other.name} merge.`);
  } catch (fault) {
    say(`comparing ${refusalOf(fault, [one.name, other.name])}. ${advice(fault.text)}`);
  }
}

/* Why the fonts of a name stay, from the lines of `fonts`: a text for each name. */
function kept(lines) {
  const found = lines.split("\n").map((line) => /^\d+: \d+ (\S+) .* kept: (.*)$/.exec(line)).filter(Boolean);
  return [...new Map(found.map(([, name, why]) => [name, `kept ${name}: ${why}`])).values()];
}

async function pool() {
  const documents = chosenFiles("document"), words = [documents.map((file) => file.data)];
  try {
    const stays = kept(plain(await ask("the fonts of the documents", "fonts", words)));
    await make("pool", "pool", words, "pooled.ps", [`pooled of ${documents.map((file) => file.name).join(", ")}`, ...stays].join("; "));
  } catch (fault) {
    say(`pool ${refusalOf(fault, documents.map((file) => file.name))}. ${advice(fault.text)}`);
  }
}

async function level() {
  const documents = chosenFiles("document");
  try {
    const answers = await ask("level", "level", [documents.map((file) => file.data)]);
    for (const [at, data] of answers.entries()) await add(`${stem(documents[at].name)}-levelled.ps`, data, `${documents[at].name}, levelled`);
    say(`${answers.length} documents are levelled.`);
  } catch (fault) {
    say(`level ${refusalOf(fault, documents.map((file) => file.name))}. ${advice(fault.text)}`);
  }
}

function extract(file, name) {
  const named = `${name.replace(/[^\w+-]/g, "_")}.pfa`;
  return make(`taking ${name} out`, "extract", [asBytes(name), [file.data]], named, `${name} of ${file.name}`);
}

/* The start */

/* A folder can be dropped, too, and has no bytes. */
async function addAll(list) {
  for (const file of list) {
    const data = await file.arrayBuffer().catch(() => null);
    if (data) await add(file.name, new Uint8Array(data));
    else say(`${file.name} can't be read.`);
  }
}

function drops() {
  const zone = place("drop");
  document.ondragover = (event) => {
    event.preventDefault();
    zone.classList.add("over");
  };
  document.ondragleave = () => zone.classList.remove("over");
  document.ondrop = (event) => {
    event.preventDefault();
    zone.classList.remove("over");
    addAll([...event.dataTransfer.files]);
  };
  place("choose").onchange = async ({ target }) => {
    await addAll([...target.files]);
    target.value = "";
  };
  place("example").onclick = () => add("tiny.pfa", new TextEncoder().encode(EXAMPLE), "a font of eleven glyphs for tests");
}

function begin() {
  if (!MODULE_BYTES) return say("This folder lacks module.js: run make web in the repository.");
  start();
  drops();
  watchGlyphs();
  const does = { stop, diff: compare, pool, level, merge: () => together("merge", "merged"), rejoin: () => together("rejoin", "rejoined") };
  for (const [id, act] of Object.entries(does)) place(id).onclick = act;
  say("Ready.");
}
