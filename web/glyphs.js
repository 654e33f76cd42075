"use strict";
/* The glyphs of a font: a list of which any may be chosen, drawn where it is seen. */

/* Names as they are printed, `\x20` for a blank, and as the library takes them. */
function asBytes(shown) {
  const text = shown.replace(/\\x([0-9a-f]{2})/g, (_, digits) => String.fromCharCode(parseInt(digits, 16)));
  return Uint8Array.from(text, (letter) => letter.charCodeAt(0));
}

/* The font whose glyphs are shown: its file, its options, and which of them the keys move. */
let options = [], active = 0, seen;

async function show(file) {
  try {
    const listed = plain(await ask(`list ${file.name}`, "list", [file.data]));
    shownFile = file;
    place("listed").textContent = listed;
    fill(listed.split("\n").filter((line) => line.startsWith("glyph ")).map((line) => line.split(" ")[1]));
    place("font-title").textContent = `Glyphs of ${file.name}`;
    place("font").hidden = false;
    say(`${file.name} has ${options.length} glyphs.`);
    place("glyphs").focus();
  } catch (fault) {
    say(`list ${refusalOf(fault)}. ${advice(fault.text)}`);
  }
}

/* An option for each name, in blocks that are drawn once they are near what is seen. */
function fill(names) {
  const box = place("glyphs"), matrix = matrixOf(shownFile.data);
  seen.disconnect();
  options = names.map((name, at) => {
    const it = made("div", { className: "glyph", id: `glyph-${at}`, textContent: name, title: name });
    it.setAttribute("role", "option");
    it.setAttribute("aria-selected", "false");
    return it;
  });
  const blocks = [];
  for (let at = 0; at < options.length; at += BLOCK) {
    const block = made("div", { className: "block" }, ...options.slice(at, at + BLOCK));
    block.setAttribute("role", "presentation");
    blocks.push(Object.assign(block, { file: shownFile, names: names.slice(at, at + BLOCK), matrix }));
  }
  box.replaceChildren(...blocks);
  box.scrollTop = 0;
  blocks.forEach((block) => seen.observe(block));
  move(0);
  counted();
}

/* Draws the glyphs of a block. What was asked for and not drawn, as the block was out of sight again, is asked for another time. */
async function draw(block) {
  block.asked = true;
  try {
    const texts = await ask("drawing", "draw", [block.file.data, block.names.map(asBytes)], () => block.isSeen && block.isConnected);
    texts.forEach((text, at) => block.children[at].prepend(picture(plain(text), block.matrix)));
    seen.unobserve(block);
  } catch (fault) {
    block.asked = false;
    if (fault.text !== STOPPED) say(`drawing ${refusalOf(fault)}. ${advice(fault.text)}`);
  }
}

function watchGlyphs() {
  const box = place("glyphs");
  seen = new IntersectionObserver((entries) => {
    for (const { target, isIntersecting } of entries) {
      target.isSeen = isIntersecting;
      if (isIntersecting && !target.asked) draw(target);
    }
  }, { root: box, rootMargin: "300px" });
  box.onclick = ({ target }) => {
    const option = target.closest(".glyph");
    if (!option) return;
    move(options.indexOf(option));
    toggle(option);
  };
  box.onkeydown = (event) => key(event);
  place("mark").onclick = choose;
  place("names").onkeydown = (event) => {
    if (event.key === "Enter") choose();
  };
  place("letters").oninput = counted;
  place("none").onclick = () => {
    options.forEach((option) => turn(option, false));
    place("letters").value = "";
    counted();
  };
  place("cut").onclick = cut;
}

/* The option that the keys act on. */
function move(at) {
  options[active]?.classList.remove("active");
  active = Math.max(0, Math.min(options.length - 1, at));
  const option = options[active];
  option?.classList.add("active");
  place("glyphs").setAttribute("aria-activedescendant", option ? option.id : "");
}

const isChosen = (option) => option.getAttribute("aria-selected") === "true";

function turn(option, on) {
  option.setAttribute("aria-selected", String(on));
}

function toggle(option) {
  turn(option, !isChosen(option));
  counted();
}

/* How many options stand in a row. */
function columns() {
  const block = options[active].parentElement.children;
  let count = 1;
  while (count < block.length && block[count].offsetTop === block[0].offsetTop) count++;
  return count;
}

function key(event) {
  if (!options.length || event.ctrlKey || event.altKey || event.metaKey) return;
  const steps = { ArrowLeft: () => -1, ArrowRight: () => 1, ArrowUp: () => -columns(), ArrowDown: () => columns(),
    PageUp: () => -4 * columns(), PageDown: () => 4 * columns(), Home: () => -options.length, End: () => options.length };
  if (event.key === " ") toggle(options[active]);
  else if (event.key in steps) move(active + steps[event.key]());
  else if (event.key.length === 1) move(beginning(event.key));
  else return;
  event.preventDefault();
  options[active].scrollIntoView({ block: "nearest" });
}

/* The next option whose name begins with a letter. */
function beginning(letter) {
  for (let step = 1; step <= options.length; step++) {
    const at = (active + step) % options.length;
    if (options[at].title.startsWith(letter)) return at;
  }
  return active;
}

/* Chooses the glyphs whose names were typed. */
function choose() {
  const wanted = place("names").value.trim().split(/\s+/).filter(Boolean), byName = new Map(options.map((option) => [option.title, option]));
  const found = wanted.filter((name) => byName.has(name)), absent = wanted.filter((name) => !byName.has(name));
  found.forEach((name) => turn(byName.get(name), true));
  counted();
  if (found.length) {
    move(options.indexOf(byName.get(found.at(-1))));
    options[active].scrollIntoView({ block: "nearest" });
  }
  say(`${found.length} glyphs are chosen.${absent.length ? ` The font has no glyph ${absent.join(", ")}.` : ""}`);
}

function counted() {
  const chosen = options.filter(isChosen).length, letters = place("letters").value;
  place("count").textContent = `${chosen} of ${options.length} glyphs are chosen${letters ? ", and those of the text" : ""}.`;
}

/* The codes of the letters of a text, or null where one is no byte. */
function codesOf(text) {
  const codes = [...text].map((letter) => letter.codePointAt(0));
  return codes.every((code) => code < 256) ? Uint8Array.from(codes) : null;
}

function cut() {
  const codes = codesOf(place("letters").value), names = options.filter(isChosen).map((option) => asBytes(option.title));
  if (!codes) return say("An Encoding has codes up to 255: this text has other letters. Choose their glyphs by name.");
  const words = codes.length ? ["subset_codes", [shownFile.data, names, codes, formNumber()]] : ["subset", [shownFile.data, names, formNumber()]];
  return make(`cut of ${shownFile.name}`, ...words, `${stem(shownFile.name)}-cut.${formName()}`, `cut of ${shownFile.name}`);
}

begin();
