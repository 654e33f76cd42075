"use strict";
/* The calls of the library, over its module for WebAssembly. Both functions stand alone: page.js passes their text to a worker, and
 * node runs them as they are. */

/* The calls by their names in t1subset.h, without `t1subset_`. A font, a document or a name is a Uint8Array, and so is what a call
 * answers; `level` answers a list of them. `form` is 0 for PFA and 1 for PFB, and `tokens` a BigInt. A refusal is thrown, as an Error
 * with `number`, `detail`, `input` and the text as `message`. */
function library(bytes) {
  const module = bytes instanceof WebAssembly.Module ? bytes : new WebAssembly.Module(bytes);
  const ANSWER = 32, MEMORY = 1, RENEWED_AT = 1 << 27;
  let wasm, held;

  /* Memory that once was large is not kept: the next call has a new instance. */
  function begin() {
    if (!wasm || wasm.memory.buffer.byteLength > RENEWED_AT) wasm = new WebAssembly.Instance(module, {}).exports;
    held = [];
  }
  function refusal(number, detail, input, text) {
    return Object.assign(new Error(text), { number, detail, input });
  }
  function room(size) {
    const place = wasm.page_take(BigInt(size)) >>> 0;
    if (!place) throw refusal(MEMORY, 0n, -1n, "out of memory");
    held.push(place);
    return place;
  }
  function put(data) {
    const place = room(data.length);
    new Uint8Array(wasm.memory.buffer).set(data, place);
    return place;
  }
  const one = (data) => [put(data), BigInt(data.length)];
  function many(list) {
    const pairs = new BigUint64Array(list.flatMap((data) => one(data).map(BigInt)));
    return [put(new Uint8Array(pairs.buffer)), BigInt(list.length)];
  }
  const limits = (tokens) => put(new Uint8Array(BigUint64Array.of(tokens).buffer));

  /* What stands in an answer; its bytes are freed. */
  function take(place) {
    const view = new DataView(wasm.memory.buffer, place, ANSWER);
    const detail = view.getBigUint64(0, true), input = view.getBigInt64(8, true);
    const [at, size] = [16, 24].map((field) => Number(view.getBigUint64(field, true)));
    const data = new Uint8Array(wasm.memory.buffer).slice(at, at + size);
    if (size) wasm.page_give(at);
    return { detail, input, data };
  }
  function told(number, { detail, input, data }) {
    return refusal(number, detail, input, number === MEMORY ? "out of memory" : new TextDecoder("latin1").decode(data));
  }

  /* A call with so many answers; what it was given is freed. One that stops leaves the instance as nobody knows. */
  function called(name, given, count = 1) {
    begin();
    try {
      const words = given(), answers = room(ANSWER * count);
      const counted = name === "level_answers" ? [BigInt(count)] : [];
      const number = wasm[name](...words, answers, ...counted) >>> 0;
      const taken = Array.from({ length: count }, (_, at) => take(answers + ANSWER * at));
      held.forEach((place) => wasm.page_give(place));
      if (number) throw told(number, taken[0]);
      return taken.map((it) => it.data);
    } catch (fault) {
      if (fault.number === undefined || fault.number === MEMORY) wasm = undefined;
      throw fault;
    }
  }
  const call = (name, given) => called("t1subset_" + name, given)[0];
  return {
    check: (font) => call("check", () => one(font)),
    list: (font) => call("list", () => one(font)),
    list_full: (font) => call("list_full", () => one(font)),
    show: (font, name) => call("show", () => [...one(font), ...one(name)]),
    convert: (font, form) => call("convert", () => [...one(font), form]),
    mend: (font, form) => call("mend", () => [...one(font), form]),
    mends: (font) => call("mends", () => one(font)),
    subset: (font, names, form) => call("subset", () => [...one(font), ...many(names), form]),
    subset_codes: (font, names, codes, form) => call("subset_codes", () => [...one(font), ...many(names), ...one(codes), form]),
    merge: (fonts, form) => call("merge", () => [...many(fonts), form]),
    rejoin: (fonts, form) => call("rejoin", () => [...many(fonts), form]),
    subset_within: (font, names, codes, form, tokens) =>
      call("subset_within", () => [...one(font), ...many(names), ...one(codes), form, limits(tokens)]),
    merge_within: (fonts, form, tokens) => call("merge_within", () => [...many(fonts), form, limits(tokens)]),
    rejoin_within: (fonts, form, tokens) => call("rejoin_within", () => [...many(fonts), form, limits(tokens)]),
    diff: (first, second) => call("diff", () => [...one(first), ...one(second)]),
    diff_within: (first, second, tokens) => call("diff_within", () => [...one(first), ...one(second), limits(tokens)]),
    join: (first, second) => call("join", () => [...one(first), ...one(second)]),
    pool: (documents, pooling = 0) => call("pool", () => [...many(documents), pooling]),
    level: (documents) => documents.length ? called("level_answers", () => many(documents), documents.length) : [],
    fonts: (documents) => call("fonts", () => many(documents)),
    extract: (name, documents) => call("extract", () => [...one(name), ...many(documents)]),
  };
}

/* What a worker does: it makes the calls of the module that it is given first, and answers each message by one. */
function work() {
  let calls;
  /* Glyphs of a font, from a font that has these alone where it can be cut: reading it is most of the work. */
  function drawn(font, names) {
    let small = font;
    try {
      small = calls.subset(font, names, 0);
    } catch (fault) {
      if (fault.number === undefined) throw fault;
    }
    return names.map((name) => calls.show(small, name));
  }
  self.onmessage = ({ data: { id, name, words } }) => {
    try {
      if (name === "module") calls = library(words[0]);
      const answer = name === "module" ? undefined : name === "draw" ? drawn(...words) : calls[name](...words);
      self.postMessage({ id, answer });
    } catch (fault) {
      self.postMessage({ id, fault: { number: fault.number, input: Number(fault.input), text: fault.message } });
    }
  };
}

if (typeof module === "object") module.exports = { library };
