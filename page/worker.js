// Runs the module over a file. Each call has an instance of its own, whose memory goes with it.
"use strict";

// Blocks lie at multiples of so many octets.
const UNIT = 16;
// Where the module writes its answer, and where it finds the memory that is handed over.
const ANSWER = 0, MEMORY = 32, STRUCTS = 64;
const PAGE = 65536;
// What is handed over at first: so much, and so much for each octet of the file.
const LEAST = 1 << 24, FOR_EACH = 12;
const NOTES = 1 << 16;

let compiled;

const up = count => Math.ceil(count / UNIT) * UNIT;

// Grows the memory to so many octets, and returns whether the browser gave them. Engines of before
// the standard take the count of pages as a number.
function grow(memory, octets) {
  const pages = Math.ceil((octets - memory.buffer.byteLength) / PAGE);
  if (pages <= 0) return true;
  for (const count of [BigInt(pages), pages]) {
    try {
      memory.grow(count);
      return true;
    } catch (error) {
      if (!(error instanceof TypeError)) return false;
    }
  }
  return false;
}

// Calls the export once, with so much memory and so much room for the report. Returns null if the
// browser doesn't give that much.
function callOnce(file, name, port, within, octets, room) {
  const { exports } = new WebAssembly.Instance(compiled, {});
  const base = up(Number(exports.__heap_base.value));
  let top = base + STRUCTS;
  const place = count => {
    const at = top;
    top = up(top + count);
    return at;
  };
  const slices = [file.length, name.length, room, NOTES].map(count => [place(count), count]);
  const handed = place(octets);
  if (!grow(exports.memory, top)) return null;
  const view = new DataView(exports.memory.buffer);
  const all = new Uint8Array(exports.memory.buffer);
  all.set(file, slices[0][0]);
  all.set(name, slices[1][0]);
  view.setBigUint64(base + MEMORY, BigInt(handed), true);
  view.setBigUint64(base + MEMORY + 8, BigInt(octets), true);
  const [fileAt, nameAt, roomAt, notesAt] = slices.map(it => it.map(BigInt));
  exports.bgp_page_check(BigInt(base + ANSWER), BigInt(base + MEMORY), ...fileAt, ...nameAt,
    port, within, ...roomAt, ...notesAt);
  const text = Number(view.getBigUint64(base + ANSWER + 8, true));
  const notes = Number(view.getBigUint64(base + ANSWER + 16, true));
  const taken = ([at, most], count) => all.slice(at, at + Math.min(most, count));
  return {
    status: view.getUint8(base + ANSWER),
    refused: view.getUint8(base + ANSWER + 1) !== 0,
    length: text,
    report: taken(slices[2], text),
    notes: taken(slices[3], notes),
  };
}

// Calls it with more memory while memory is refused, and with more room if the report needs it. If
// the browser gives no more, returns what came last, and says so.
function call(file, name, port, within) {
  let octets = up(LEAST + FOR_EACH * file.length);
  let room = up(LEAST / 16 + 2 * file.length);
  let last = null;
  for (;;) {
    const answer = callOnce(file, name, port, within, octets, room);
    if (answer === null) return { ...last, lacks: true };
    if (answer.length > answer.report.length) room = answer.length;
    else if (answer.refused) octets *= 2;
    else return answer;
    if (answer.length === answer.report.length) last = answer;
  }
}

// What is asked: first a module is given, then files are.
async function answerTo({ module, file, name, port, within }) {
  if (module) {
    compiled = await WebAssembly.compile(module);
    return {};
  }
  return call(file, name, port, within);
}

self.onmessage = async ({ data }) => {
  try {
    self.postMessage(await answerTo(data));
  } catch (error) {
    self.postMessage({ error: String(error) });
  }
};
