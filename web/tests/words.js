#!/usr/bin/env node
"use strict";
/* The commands of the program t1subset over the module: the same files, lines and exit status, but for the command line. MODULE names
 * the module.js that is meant. A line "NUMBER DETAIL INPUT" about the answer is written to the file that TOLD names. */
const fs = require("fs"), path = require("path");
const { library } = require("../calls.js");

const text = fs.readFileSync(process.env.MODULE || path.join(__dirname, "../module.js"), "latin1");
const t1 = library(Buffer.from(/"([A-Za-z0-9+/=]{100,})"/.exec(text)[1], "base64"));
const options = { form: 0, codes: [], text: [], tokens: null, extract: null, full: false }, words = [];

const plain = (data) => Buffer.from(data).toString("latin1");
const bytes = (word) => new Uint8Array(Buffer.from(word));
const file = (name) => new Uint8Array(fs.readFileSync(name));

/* The codes of a list that is one, such as 65-90,97. */
function codesOf(list) {
  return list.split(",").flatMap((part) => {
    const [first, last = first] = part.split("-").map(Number);
    return Array.from({ length: last - first + 1 }, (_, at) => first + at);
  });
}

/* Takes the options out of the arguments. */
function take(given) {
  const takes = {
    "--pfb": () => { options.form = 1; },
    "--full": () => { options.full = true; },
    "--codes": (value) => { options.codes.push(...codesOf(value())); },
    "--text": (value) => { options.text = [...bytes(value())]; },
    "--tokens": (value) => { options.tokens = BigInt(value()); },
    "--extract": (value) => { options.extract = bytes(value()); },
  };
  while (given.length) {
    const word = given.shift(), [name, ...behind] = word.split("=");
    if (word === "--") return words.push(...given.splice(0));
    if (name in takes) takes[name](() => behind.length ? behind.join("=") : given.shift());
    else words.push(word);
  }
}

/* Why the fonts of each name stay: a line for each, by the lines of `fonts`. */
function kept(documents) {
  const lines = plain(t1.fonts(documents)).split("\n").map((line) => /^\d+: \d+ (\S+) .* kept: (.*)$/.exec(line)).filter(Boolean);
  return [...new Map(lines.map((found) => [found[1], `kept ${found[1]}: ${found[2]}\n`])).values()].join("");
}

/* The subset of a font, what merges or rejoins fonts, and the conflicts of two, within limits if there are some. */
function cut(font, names, codes) {
  const { form, tokens } = options;
  if (tokens !== null) return t1.subset_within(font, names, codes, form, tokens);
  return codes.length ? t1.subset_codes(font, names, codes, form) : t1.subset(font, names, form);
}
function made(word, fonts) {
  const { form, tokens } = options;
  return tokens === null ? t1[word](fonts, form) : t1[word + "_within"](fonts, form, tokens);
}
function conflicts(first, second) {
  return options.tokens === null ? t1.diff(first, second) : t1.diff_within(first, second, options.tokens);
}

/* What a command prints, which files it writes, and what it says. */
function run(word, rest) {
  const { form, codes: listed, text: letters, extract } = options, codes = Uint8Array.from([...listed, ...letters]);
  const written = (out, data, said = "") => ({ files: { [out]: data }, said });
  const [first, second, ...names] = rest, wanted = names.map(bytes);
  const several = () => rest.slice(1).map(file), inside = (at) => path.join(first, path.basename(rest[at + 1]));
  const places = () => plain(t1.fonts(rest.map(file))).replace(/^(\d+):/gm, (_, at) => `${rest[at]}:`);
  const does = {
    check: () => ({ printed: t1.check(file(first)) }),
    list: () => ({ printed: options.full ? t1.list_full(file(first)) : t1.list(file(first)) }),
    show: () => ({ printed: t1.show(file(first), bytes(second)) }),
    pfa: () => written(second, t1.convert(file(first), 0)),
    pfb: () => written(second, t1.convert(file(first), 1)),
    mend: () => written(second, t1.mend(file(first), form), plain(t1.mends(file(first)))),
    subset: () => written(second, cut(file(first), wanted, codes)),
    merge: () => written(first, made("merge", several())),
    rejoin: () => written(first, made("rejoin", several())),
    pool: () => written(first, t1.pool(several()), kept(several())),
    level: () => ({ files: Object.fromEntries(t1.level(several()).map((data, at) => [inside(at), data])), said: kept(several()) }),
    fonts: () => extract ? written(first, t1.extract(extract, several())) : { printed: places() },
    diff: () => ({ printed: conflicts(file(first), file(second)), isDiff: true }),
    join: () => ({ printed: t1.join(file(first), file(second)) }),
  };
  return does[word]();
}

function tell(number, detail, input) {
  if (process.env.TOLD) fs.writeFileSync(process.env.TOLD, `${number} ${detail} ${input}\n`);
}

take(process.argv.slice(2));
try {
  const { printed = "", files = {}, said = "", isDiff } = run(words[0], words.slice(1));
  tell(0, 0, -1);
  for (const [name, data] of Object.entries(files)) fs.writeFileSync(name, data);
  process.stdout.write(printed);
  process.stderr.write(said);
  process.exitCode = isDiff && printed.length ? 1 : 0;
} catch (fault) {
  if (fault.number === undefined) throw fault;
  tell(fault.number, fault.detail, fault.input);
  process.stderr.write(`refused: ${fault.message}\n`);
  process.exitCode = 1;
}
