// Shows the report that the module writes on a file. It reads nothing of the file or the report:
// each word between the frame's borders is the module's.
"use strict";
const at = id => document.getElementById(id);
const INSTEAD = "On a machine with the program: bgp check --html FILE > report.html";
// What the exit status of `bgp check` says.
const STATUSES = {
  0: "yes",
  1: "no",
  2: "unfinished",
  3: "the file or a session is refused, or no end is judged",
  4: "memory ran out",
  5: "the report is cut off",
  64: "the file's name isn't text",
};

// Returns why this browser can't run the module, if it can't.
function lacking() {
  // A module with nothing but a memory of 64-bit addresses.
  const wide = Uint8Array.of(0, 97, 115, 109, 1, 0, 0, 0, 5, 3, 1, 4, 1);
  if (typeof WebAssembly !== "object") return "This browser has no WebAssembly, or forbids it.";
  if (typeof DecompressionStream !== "function") return "This browser is too old for this page.";
  if (!WebAssembly.validate(wide)) {
    return "This browser has no 64-bit memories of WebAssembly: Chromium 133 and Firefox 134 have them.";
  }
  return null;
}

// Returns the module's octets, which stand in the page as gzip in base64.
async function moduleOctets() {
  const packed = Uint8Array.from(atob(at("module").textContent), it => it.charCodeAt(0));
  const stream = new Blob([packed]).stream().pipeThrough(new DecompressionStream("gzip"));
  return new Uint8Array(await new Response(stream).arrayBuffer());
}

// Starts a thread with the module. It is asked one thing at a time.
async function startEngine() {
  const code = new Blob([at("worker").textContent], { type: "text/javascript" });
  const worker = new Worker(URL.createObjectURL(code));
  let last = Promise.resolve();
  const ask = asked => {
    last = last.then(() => new Promise(resolve => {
      worker.onmessage = ({ data }) => resolve(data);
      worker.onerror = ({ message }) => resolve({ error: message });
      worker.postMessage(asked);
    }));
    return last;
  };
  const { error } = await ask({ module: await moduleOctets() });
  if (error) throw new Error(error);
  return ask;
}

function say(sentence, isFault = false) {
  at("status").textContent = sentence;
  at("status").classList.toggle("fault", isFault);
}

// Makes the frame as high as what stands in it, so that the page has one scroll bar.
const fitted = new ResizeObserver(() => {
  const inner = at("report").contentDocument?.documentElement;
  if (inner) at("report").style.height = `${Math.ceil(inner.getBoundingClientRect().height)}px`;
});

function show(name, { status, report, notes, lacks }, others) {
  const lines = [`${name}: ${STATUSES[status] ?? "?"} (exit status ${status}).`];
  if (lacks) lines.push("This browser gives no more memory, so the report lacks something.", INSTEAD);
  if (others) lines.push("Several files were given: this is the first.");
  say(lines.join(" "), Boolean(lacks));
  at("notes").textContent = new TextDecoder().decode(notes);
  at("notes").hidden = notes.length === 0;
  URL.revokeObjectURL(at("save").href);
  at("save").href = URL.createObjectURL(new Blob([report], { type: "text/html" }));
  at("save").download = savedName(name);
  at("tools").hidden = false;
  at("report").srcdoc = new TextDecoder("utf-8", { ignoreBOM: true }).decode(report);
  at("report").hidden = false;
}

// Returns a name for the saved report that every file system takes.
function savedName(name) {
  return `${name.replace(/[\p{C}\p{Z}\\/:*?"<>|]/gu, "_").slice(0, 100)}.html`;
}

function hideReport() {
  at("report").hidden = at("tools").hidden = at("notes").hidden = true;
}

// Checks a file with the options that are typed.
async function check(ask, file, others) {
  hideReport();
  say(`Reading ${file.name} ..`);
  let octets;
  try {
    octets = new Uint8Array(await file.arrayBuffer());
  } catch (error) {
    const why = "it is a folder, has changed since it was given, or is too large for this browser";
    return say(`${file.name} can't be read: ${why} (${error.message})`, true);
  }
  say(`Checking ${file.name} ..`);
  const answer = await ask({
    file: octets,
    name: new TextEncoder().encode(file.name),
    port: at("port").valueAsNumber,
    within: at("within").valueAsNumber,
  });
  if (answer.error) return say(`The module stopped: ${answer.error}. ${INSTEAD}`, true);
  if (!answer.report) return say(`This browser gives too little memory. ${INSTEAD}`, true);
  show(file.name, answer, others);
}

// Takes what is dropped on a window or a document: if nobody does, a browser opens the file in place
// of the page.
function takeDrops(target, take) {
  const mark = isOver => at("drop").classList.toggle("over", isOver);
  target.addEventListener("dragover", event => {
    event.preventDefault();
    mark(true);
  });
  target.addEventListener("dragleave", () => mark(false));
  target.addEventListener("drop", event => {
    event.preventDefault();
    mark(false);
    take(event.dataTransfer.files);
  });
}

// Takes files that are chosen or dropped, also on the report.
function listen(ask) {
  let file = null;
  const take = files => {
    if (!files.length || at("file").disabled) return;
    file = files[0];
    at("again").disabled = false;
    if (at("form").reportValidity()) check(ask, file, files.length > 1);
  };
  // So that the same file can be chosen again, after it has changed.
  at("file").onclick = () => { at("file").value = ""; };
  at("file").onchange = () => take(at("file").files);
  at("form").onsubmit = event => {
    event.preventDefault();
    if (file) check(ask, file, false);
  };
  takeDrops(self, take);
  at("report").onload = () => {
    fitted.disconnect();
    const inner = at("report").contentDocument;
    if (inner) {
      fitted.observe(inner.documentElement);
      takeDrops(inner, take);
    }
    document.body.dataset.shown = Number(document.body.dataset.shown ?? 0) + 1;
  };
  at("print").onclick = () => at("report").contentWindow.print();
}

// Says why no file can be checked here, and takes none.
function refuse(sentence) {
  at("file").disabled = at("again").disabled = true;
  say(`${sentence} ${INSTEAD}`, true);
}

const lacks = lacking();
if (lacks) {
  takeDrops(self, () => {});
  refuse(lacks);
} else {
  const engine = startEngine();
  engine.catch(error => refuse(`The module can't be started: ${error.message}.`));
  listen(async asked => (await engine)(asked));
}
