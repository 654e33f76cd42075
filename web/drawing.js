"use strict";
/* What `show` says of a glyph, as SVG. */

/* What each picture has at least, in 1/1000 em: from 250 under the base line to 950 above it; and a margin. */
const EM = { left: -100, right: 1000, bottom: -250, top: 950 }, MARGIN = 30;

/* A number as `show` prints it: whole units, or a count of 1/65536 unit. */
function numberOf(text) {
  const [count, unit] = text.split("/");
  return Number(count) / Number(unit || 1);
}

/* The path of a glyph, its width and the coordinates that it has, or the name of its fault. */
function outline(shown) {
  if (shown.startsWith("fault ")) return { fault: shown.slice(6).trim() };
  const letters = { move: "M", line: "L", curve: "C" };
  let path = "", offset = [0, 0], last = [0, 0], open = false, width = 0;
  const places = [];
  for (const line of shown.split("\n")) {
    const [word, ...rest] = line.split(" "), numbers = rest.map(numberOf);
    if (word === "width") width = numbers[0];
    else if (word === "bearing") last = numbers;
    else if (word === "part") offset = numbers;
    else if (word === "close" && open) {
      path += "Z";
      open = false;
    } else if (word in letters) {
      const placed = numbers.map((value, at) => value + offset[at % 2]);
      /* A line without a move begins where the last one ended. */
      if (!open && word !== "move") path += `M${last[0] + offset[0]} ${last[1] + offset[1]}`;
      open = true;
      path += letters[word] + placed.join(" ");
      places.push(...placed);
      last = numbers.slice(-2);
    }
  }
  return { path, width, places };
}

/* The six numbers of a font's FontMatrix, times 1000, as its clear text has them. */
function matrixOf(data) {
  const text = new TextDecoder("latin1").decode(data.subarray(0, 1 << 20)).split("eexec")[0];
  const found = /\/FontMatrix\s*[[{]([^\]}]*)[\]}]/.exec(text);
  const numbers = found ? found[1].trim().split(/\s+/).map((it) => 1000 * Number(it)) : [];
  const sound = numbers.length === 6 && numbers.every(Number.isFinite) && Math.abs(numbers[0] * numbers[3] - numbers[1] * numbers[2]) > 1e-9;
  return sound ? numbers : [1, 0, 0, 1, 0, 0];
}

/* The box of a picture: the em, in the middle of which the glyph stands, and what the glyph has beyond it. */
function boxOf({ width, places }, [a, b, c, d, e, f]) {
  const xs = [], ys = [];
  for (let at = 0; at < places.length; at += 2) {
    xs.push(a * places[at] + c * places[at + 1] + e);
    ys.push(b * places[at] + d * places[at + 1] + f);
  }
  const middle = a * width / 2 - (EM.left + EM.right) / 2;
  const least = (list, start) => list.reduce((one, other) => Math.min(one, other), start);
  const most = (list, start) => list.reduce((one, other) => Math.max(one, other), start);
  const left = least(xs, EM.left + middle) - MARGIN, right = most(xs, EM.right + middle) + MARGIN;
  const bottom = least(ys, EM.bottom) - MARGIN, top = most(ys, EM.top) + MARGIN;
  return `${left} ${-top} ${right - left} ${top - bottom}`;
}

/* The picture of a glyph, or the word that stands for it. The name beside it says what it is, so it is hidden from readers. */
function picture(shown, matrix) {
  const drawn = outline(shown);
  if (drawn.fault) {
    const said = document.createElement("span");
    said.className = "fault";
    said.textContent = drawn.fault;
    return said;
  }
  const svg = document.createElementNS("http://www.w3.org/2000/svg", "svg"), path = document.createElementNS(svg.namespaceURI, "path");
  const [a, b, c, d, e, f] = matrix;
  svg.setAttribute("viewBox", boxOf(drawn, matrix));
  svg.setAttribute("aria-hidden", "true");
  path.setAttribute("d", drawn.path);
  path.setAttribute("transform", `matrix(${a} ${-b} ${c} ${-d} ${e} ${-f})`);
  svg.append(path);
  return svg;
}

if (typeof module === "object") module.exports = { outline, boxOf, matrixOf };
