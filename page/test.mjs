// Compares what the page shows of files with what the program prints of them.
//
// usage: test.mjs PAGE MODULE PROGRAM LOOKS FILE ..
//
// First the worker's script runs the module here, then Chromium the whole page. The report, the
// status and the sentences on standard error have to be the program's, octet for octet. LOOKS is a
// folder for pictures. Prints the first difference, or ok.
import { spawnSync } from "node:child_process";
import fs from "node:fs";
import os from "node:os";
import path from "node:path";
import { pathToFileURL } from "node:url";
import { Browser } from "./browser.mjs";

const [page, module, program, looks, ...files] = process.argv.slice(2);
const here = path.dirname(new URL(import.meta.url).pathname);

class Difference extends Error {}

function same(what, got, wanted) {
  if (Buffer.compare(Buffer.from(got), Buffer.from(wanted)) === 0) return;
  throw new Difference(`${what}: ${got.length} octets, and ${wanted.length} of the program`);
}

function isSo(what, holds) {
  if (!holds) throw new Difference(what);
}

// Waits for something, and not for ever.
function soon(what, promise) {
  let timer;
  const late = new Promise((_, reject) => {
    timer = setTimeout(() => reject(new Difference(`${what} takes more than two minutes`)), 120_000);
  });
  return Promise.race([promise, late]).finally(() => clearTimeout(timer));
}

// What the program says of a file, which it is given by its name alone.
function native(file, ...options) {
  const words = ["check", "--html", ...options, "--", path.basename(file)];
  const ran = spawnSync(program, words, { cwd: path.dirname(file), maxBuffer: 1 << 30 });
  return { status: ran.status, report: ran.stdout, notes: ran.stderr };
}

function compare(file, got, wanted) {
  const name = JSON.stringify(path.basename(file));
  same(`the report on ${name}`, got.report, wanted.report);
  same(`standard error on ${name}`, got.notes, wanted.notes);
  isSo(`the status on ${name}: ${got.status}, not ${wanted.status}`, got.status === wanted.status);
}

// ---- the module alone, by the worker's script

// Returns the worker's script, changed so that it hands over little memory at first, and so that it
// gets no more than at first if `isAll`.
function withLittle(source, isAll) {
  const little = source.replace("LEAST = 1 << 24, FOR_EACH = 12", "LEAST = 1 << 12, FOR_EACH = 0");
  if (little === source) throw new Error("worker.js hands over memory in another way");
  return !isAll ? little : `
    const given = WebAssembly.Memory.prototype.grow;
    let most = 0;
    WebAssembly.Memory.prototype.grow = function (pages) {
      most ||= Number(pages);
      if (Number(pages) > most) throw new RangeError("no more memory");
      return given.call(this, pages);
    };
    ${little}`;
}

async function startWorker(changed = source => source) {
  let answered;
  const self = { postMessage: data => answered(data) };
  const source = fs.readFileSync(path.join(here, "worker.js"), "utf8");
  new Function("self", changed(source))(self);
  const ask = data => new Promise(done => {
    answered = done;
    self.onmessage({ data });
  });
  const { error } = await ask({ module: fs.readFileSync(module) });
  if (error) throw new Error(error);
  return ask;
}

async function testModule(wanted) {
  const ask = await startWorker();
  for (const file of files) {
    const name = new TextEncoder().encode(path.basename(file));
    const got = await ask({ file: fs.readFileSync(file), name, port: 179, within: 10 });
    if (got.error) throw new Difference(`the module on ${file}: ${got.error}`);
    compare(file, got, wanted.get(file));
  }
  const unnamed = await ask({ file: Buffer.alloc(0), name: Buffer.of(0xff), port: 179, within: 10 });
  isSo("a name that isn't text has status 64", unnamed.status === 64 && unnamed.length === 0);
  await testOptions(ask);
  await testMemory(wanted);
  console.log(`the module: ${files.length} files`);
}

// The file with the longest report: little memory isn't enough for it.
function longest(wanted) {
  const lengths = files.map(it => wanted.get(it).report.length);
  return files[lengths.indexOf(Math.max(...lengths))];
}

// A port and seconds of the user's.
const OTHERS = { port: 1179, within: 5 };
const OTHER_WORDS = ["--port", "1179", "--within", "5"];

async function testOptions(ask) {
  const name = new TextEncoder().encode(path.basename(files[0]));
  const got = await ask({ file: fs.readFileSync(files[0]), name, ...OTHERS });
  compare(files[0], got, native(files[0], ...OTHER_WORDS));
}

// If too little memory is handed over at first, it is asked again with more; if there is no more,
// the answer says so.
async function testMemory(wanted) {
  const file = longest(wanted);
  const name = new TextEncoder().encode(path.basename(file));
  const asked = { file: fs.readFileSync(file), name, port: 179, within: 10 };
  const whole = await (await startWorker(it => withLittle(it, false)))(asked);
  compare(file, whole, wanted.get(file));
  isSo("memory that was enough is said to lack", !whole.lacks);
  const grow = WebAssembly.Memory.prototype.grow;
  try {
    const cut = await (await startWorker(it => withLittle(it, true)))(asked);
    isSo(`no more memory: ${cut.error ?? "a whole report"}`, cut.lacks === true);
  } finally {
    WebAssembly.Memory.prototype.grow = grow;
  }
}

// ---- the page in Chromium

// Waits until a file is shown, or a sentence says why not.
const SHOWN = `new Promise(done => {
  const timer = setInterval(() => {
    const at = document.getElementById("status");
    if (document.body.dataset.shown !== self.before || at.classList.contains("fault")) {
      clearInterval(timer);
      done({
        said: at.textContent,
        report: document.getElementById("report").srcdoc,
        notes: document.getElementById("notes").textContent,
        tags: [...document.getElementById("report").contentDocument.querySelectorAll("*")]
          .map(it => it.localName),
        pwned: self.pwned,
      });
    }
  }, 10);
})`;
const TAGS = new Set(("html head meta title style body h1 h2 h3 p pre samp details summary table caption "
  + "thead tbody tr th td div span section b").split(" "));

async function shown(browser, chosen) {
  return shownAfter(browser, () => browser.choose("#file", [].concat(chosen)));
}

// The status is emptied first, so that a sentence is one on what is done.
async function shownAfter(browser, deed) {
  await browser.value(`self.before = document.body.dataset.shown;
    document.getElementById("status").className = ""; null`);
  await deed();
  return browser.value(SHOWN);
}

// Saves the report, and returns what was saved.
async function saved(browser, folder) {
  const ended = new Promise(done => {
    browser.wire.hearing.push(({ method, params }) => {
      if (method === "Browser.downloadProgress" && params.state !== "inProgress") done(params.state);
    });
  });
  await browser.value("document.getElementById('save').click()");
  isSo("the report is saved", await ended === "completed");
  const [name] = fs.readdirSync(folder);
  const octets = fs.readFileSync(path.join(folder, name));
  fs.rmSync(path.join(folder, name));
  return octets;
}

// Chromium asks the user after ten downloads.
const EACH_SAVED = Math.ceil(files.length / 10);

async function testPage(wanted) {
  const folder = fs.mkdtempSync(path.join(os.tmpdir(), "saved-"));
  const browser = await Browser.start({ saved: folder });
  try {
    const url = pathToFileURL(page).href;
    await browser.go(url);
    for (const [i, file] of files.entries()) {
      const name = JSON.stringify(path.basename(file));
      const got = await soon(`to show ${name}`, shown(browser, file));
      const { status, report, notes } = wanted.get(file);
      same(`the page's report on ${name}`, got.report, report.toString());
      same(`the page's notes on ${name}`, got.notes, notes.toString());
      isSo(`the page's status on ${name}: ${got.said}`, got.said.includes(`(exit status ${status})`));
      if (i % EACH_SAVED === 0) {
        const octets = await soon(`to save ${name}`, saved(browser, folder));
        same(`what is saved of ${name}`, octets, report);
      }
      isSo(`markup in the report on ${name}: ${got.tags}`, got.tags.every(it => TAGS.has(it)));
      isSo(`a script ran in the report on ${name}`, got.pwned === undefined);
    }
    await testSeveral(browser);
    await testDrops(browser, wanted);
    await testAgain(browser);
    await testChanged(browser, path.join(folder, "changed.pcap"));
    const others = browser.requests.map(it => it.url).filter(it => it !== url && !it.startsWith("blob:"));
    isSo(`the page asked for ${others}`, others.length === 0);
    isSo(`the console says ${browser.said}`, browser.said.length === 0);
    await testFrame(browser);
    console.log(`the page: ${files.length} files; requests: the page and its own blobs`);
  } finally {
    await browser.end();
    fs.rmSync(folder, { recursive: true });
  }
}

// Two files: the first is read, and a sentence says so.
async function testSeveral(browser) {
  await browser.value("document.getElementById('file').multiple = true, null");
  const got = await shown(browser, files.slice(0, 2));
  isSo(`two files: ${got.said}`, got.said.includes("this is the first"));
}

// A file is dropped on the page, two are, a folder is; and a file on the report.
async function testDrops(browser, wanted) {
  const [first, second] = files;
  const dropped = (what, at, all) => soon(`to show ${what}`, shownAfter(browser, () => browser.drop(at, all)));
  const one = await dropped("a file that is dropped", "#drop", [first]);
  same("the report on a file that is dropped", one.report, wanted.get(first).report.toString());
  const two = await dropped("two that are dropped", "#drop", [second, first]);
  isSo(`two files are dropped: ${two.said}`, two.said.includes("this is the first"));
  same("the report on the first of two", two.report, wanted.get(second).report.toString());
  const folder = await dropped("a folder that is dropped", "#drop", [path.dirname(first)]);
  isSo(`a folder is dropped: ${folder.said}`, folder.said.includes("is a folder"));
  isSo("a folder is dropped: the report before stays",
    await browser.value("document.getElementById('report').hidden"));
  await shown(browser, second);
  const over = await dropped("a file that is dropped on the report", "#report", [first]);
  same("the report on a file that is dropped on one", over.report, wanted.get(first).report.toString());
}

// The same file with another port and other seconds.
async function testAgain(browser) {
  await shown(browser, files[0]);
  const got = await soon("to check again", shownAfter(browser, () => browser.value(`
    document.getElementById("port").value = ${OTHERS.port};
    document.getElementById("within").value = ${OTHERS.within};
    document.getElementById("again").click()`)));
  const { status, report, notes } = native(files[0], ...OTHER_WORDS);
  same("the report with another port", got.report, report.toString());
  same("the notes with another port", got.notes, notes.toString());
  isSo(`the status with another port: ${got.said}`, got.said.includes(`(exit status ${status})`));
}

// A file that grew after it was chosen, as one does that is still recorded.
async function testChanged(browser, file) {
  fs.copyFileSync(files[0], file);
  await shown(browser, file);
  fs.appendFileSync(file, Buffer.alloc(1));
  const got = await soon("to read what has changed", shownAfter(browser, () => browser.value(
    "document.getElementById('again').click()")));
  fs.rmSync(file);
  isSo(`a file has changed: ${got.said}`, got.said.includes("has changed"));
}

// Whatever stands in the frame, no script of it runs, and it loads nothing: also after a click.
// (`data:` is what Chromium draws in place of what it blocked.)
async function testFrame(browser) {
  const from = "https://192.0.2.1";
  const hostile = `<script>parent.pwned = 1</script><img src=${from}/i onerror='parent.pwned = 1'>`
    + `<meta http-equiv=refresh content='0;url=${from}/'><iframe src=${from}/f></iframe>`
    + `<link rel=stylesheet href=${from}/l><form action=${from}/s><button>b</button></form>`
    + `<a href=${from}/a target=_top>a</a><a href=${from}/b>b</a>`;
  const before = browser.requests.length;
  await browser.value(`new Promise(done => {
    const frame = document.getElementById("report");
    frame.addEventListener("load", () => setTimeout(done, 500), { once: true });
    frame.srcdoc = ${JSON.stringify(hostile)};
  })`);
  await browser.value(`new Promise(done => {
    const inner = document.getElementById("report").contentDocument;
    inner.querySelectorAll("a, button").forEach(it => it.click());
    setTimeout(done, 500);
  })`);
  isSo("a script ran in the frame", await browser.value("self.pwned") === undefined);
  const loaded = browser.requests.slice(before)
    .filter(it => !it.blocked && !it.url.startsWith("data:")).map(it => it.url);
  isSo(`the frame loads ${loaded}`, loaded.length === 0);
  const url = await browser.value("location.href");
  isSo(`the frame leads the page to ${url}`, url === pathToFileURL(page).href);
}

// A browser without 64-bit memories, and one without WebAssembly: a sentence, and no chooser.
async function testLacking() {
  for (const lacks of ["WebAssembly.validate = () => false", "delete self.WebAssembly"]) {
    const browser = await Browser.start();
    try {
      await browser.own("Page.addScriptToEvaluateOnNewDocument", { source: lacks });
      await browser.go(pathToFileURL(page).href);
      const said = await browser.value("document.getElementById('status').textContent");
      isSo(`a browser that lacks something: ${said}`, said.includes("bgp check --html FILE"));
      isSo("the chooser is off", await browser.value("document.getElementById('file').disabled"));
      await browser.drop("#drop", [files[0]]);
      isSo("a file is taken where none can be checked",
        await browser.value("document.getElementById('status').textContent") === said);
    } finally {
      await browser.end();
    }
  }
  console.log("the page in a browser that lacks something");
}

// A browser that gives no more memory than at first, which is little: a sentence.
async function testLittle(wanted) {
  const browser = await Browser.start();
  const source = `
    const Whole = Blob;
    self.Blob = class extends Whole {
      constructor(parts, options) {
        const isWorker = options?.type === "text/javascript";
        super(isWorker ? [(${withLittle})(parts[0], true)] : parts, options);
      }
    };`;
  try {
    await browser.own("Page.addScriptToEvaluateOnNewDocument", { source });
    await browser.go(pathToFileURL(page).href);
    const { said } = await soon("to lack memory", shown(browser, longest(wanted)));
    isSo(`no more memory: ${said}`, /gives (no more|too little) memory/.test(said));
    isSo(`no more memory, without what helps: ${said}`, said.includes("bgp check --html FILE"));
  } finally {
    await browser.end();
  }
  console.log("the page in a browser with little memory");
}

// ---- pictures

async function makePictures() {
  const browser = await Browser.start();
  const file = files.find(it => it.endsWith("bad-as-bird.pcap")) ?? files[0];
  try {
    await browser.go(pathToFileURL(page).href);
    await browser.look(path.join(looks, "empty.png"));
    await shown(browser, file);
    for (const [name, width, dark] of [["light", 1280, false], ["dark", 1280, true], ["narrow", 400, false]]) {
      await browser.width(width);
      await browser.dark(dark);
      await browser.value("new Promise(done => setTimeout(done, 500))");
      await browser.look(path.join(looks, `${name}.png`));
    }
    await browser.width(1280);
    await browser.printed(path.join(looks, "printed.pdf"));
  } finally {
    await browser.end();
  }
  console.log(`pictures in ${looks}`);
}

try {
  const wanted = new Map(files.map(it => [it, native(it)]));
  await testModule(wanted);
  await testPage(wanted);
  await testLacking();
  await testLittle(wanted);
  await makePictures();
  console.log("ok");
} catch (error) {
  if (!(error instanceof Difference)) throw error;
  console.log(`DIFFERENT: ${error.message}`);
  process.exitCode = 1;
}
