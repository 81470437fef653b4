"use strict";

// Starts the workbench: what the server says of itself, the examples, the folder, and what is dropped on the page.

let examples = {};
let lastAct = null;

function takeFile(file, wanted) {
  if (file) {
    attempt("open", async () => takeBytes(file.name, new Uint8Array(await file.arrayBuffer()), wanted));
  }
}

// Takes all files of an example; of its schedules the one that is named.
function takeExample(folder, schedule) {
  const files = examples[folder];
  const kinds = { "limits.toml": "limits", "trace.txt": "trace", conf: "chain", "by-hand.txt": "split" };
  papers.classes.clear();
  ["split", "report", "chain"].forEach((kind) => papers.all.get(kind).give(""));
  Object.entries(files).forEach(([name, text]) => {
    if (kinds[name]) {
      papers.all.get(kinds[name]).give(text, name);
    } else if (files.conf && name.endsWith(".gal")) {
      papers.addClass(name, text);
    }
  });
  const source = Object.keys(files).find((name) => name.endsWith(".gal") && !files.conf);
  if (source) {
    papers.all.get("source").give(files[source], source);
  }
  papers.all.get("schedule").give(files[schedule] || "drain\n", files[schedule] ? schedule : "schedule.txt");
  steps.at = 0;
  papers.show(papers.all.get(files.conf ? "chain" : "source"));
}

function listExamples() {
  const select = document.getElementById("example");
  Object.entries(examples).forEach(([folder, files]) => {
    const group = make("optgroup");
    group.label = folder;
    const schedules = Object.keys(files).filter((name) =>
      ["schedule.txt", "early.txt", "overtake.txt", "stages.txt", "links.txt"].includes(name));
    ["drain", ...schedules].forEach((schedule) => {
      const option = make("option", "", schedule === "drain" ? folder : `${folder}, ${schedule.replace(".txt", "")}`);
      option.value = `${folder}/${schedule}`;
      group.append(option);
    });
    select.append(group);
  });
  select.addEventListener("change", () => {
    const [folder, schedule] = select.value.split("/");
    if (folder) {
      takeExample(folder, schedule);
    }
    select.value = "";
  });
}

// The folder that workbench was started with: its texts by their names.
function listFolder(names) {
  const select = document.getElementById("open");
  select.replaceChildren(make("option", "", "open ..."), ...names.map((name) => {
    const option = make("option", "", name);
    option.value = name;
    return option;
  }));
  select.firstChild.value = "";
}

async function openFromFolder(name) {
  const response = await ask(`folder/${name}`, {});
  await takeBytes(name, new Uint8Array(await response.arrayBuffer()));
}

async function saveToFolder() {
  const { shown } = papers;
  const name = inputOf("save-name") || shown.file;
  const response = await ask(`folder/${encodeURIComponent(name)}`, { method: "PUT", body: encodeText(shown.text) });
  shown.file = name;
  listFolder((await response.json()).names);
  document.getElementById("saved").textContent = `Saved ${name}.`;
}

function startFolder() {
  document.getElementById("folder").hidden = !bench.folder;
  if (!bench.folder) {
    return;
  }
  document.getElementById("folder").title = bench.folder.path;
  listFolder(bench.folder.names);
  document.getElementById("open").addEventListener("change", ({ target }) => {
    const name = target.value;
    target.value = "";
    attempt("open", () => name && openFromFolder(name));
  });
  document.getElementById("save").addEventListener("click", () => attempt("save", saveToFolder));
}

// Says which program is called, and that nothing of one without proofs is proved.
function tellProgram({ proved, told }) {
  const place = document.getElementById("program");
  place.className = proved ? "proved" : "unproved";
  place.replaceChildren(make("b", "", proved ? "proved" : "not proved"), make("span", "", ` ${told}`));
}

// After a change that is accepted, the last command is given again, where it was quick.
function startAgain() {
  ["run", "compile", "check", "replay"].forEach((name) =>
    document.getElementById(`do-${name}`).addEventListener("click", () => { lastAct = name; }));
  ["lossy", "audit", "chain", "gen", "pcap-out"].forEach((name) =>
    document.getElementById(`do-${name}`).addEventListener("click", () => { lastAct = null; }));
  papers.listeners.push(({ kind }, answer) => {
    const isWanted = document.getElementById("again").checked && lastAct && panels.shown === "answer";
    if (isWanted && answer.isDone && kind in ROLES && kind !== "report") {
      attempt(lastAct, { run, compile, check, replay }[lastAct]);
    }
  });
  document.getElementById("way").addEventListener("change", () => {
    if (lastAct && lastAct !== "run" && panels.shown === "answer") {
      attempt(lastAct, { compile, check, replay }[lastAct]);
    }
  });
}

function startTools() {
  document.getElementById("download").addEventListener("click", () =>
    download(papers.shown.file, encodeText(papers.shown.text)));
  document.getElementById("choose").addEventListener("change", ({ target }) => {
    takeFile(target.files[0]);
    target.value = "";
  });
  document.getElementById("wide").addEventListener("click", ({ target }) =>
    target.setAttribute("aria-pressed", document.body.classList.toggle("alone")));
  document.getElementById("add-class").addEventListener("click", () => {
    const name = `${inputOf("class-name").replace(/\.gal$/, "")}.gal`;
    if (CLASS_NAME.test(name)) {
      papers.show(papers.addClass(name, (papers.classes.get(name) || {}).text || FIRST_SOURCE));
    }
  });
  document.addEventListener("dragover", (moved) => moved.preventDefault());
  document.addEventListener("drop", (dropped) => {
    dropped.preventDefault();
    [...dropped.dataTransfer.files].forEach((file) => takeFile(file));
  });
  const drawings = document.querySelector(".answers");
  ["pointerover", "focusin"].forEach((name) => drawings.addEventListener(name, ({ target }) => tell(target)));
}

async function start() {
  papers.start();
  panels.start();
  startCommands();
  startTools();
  handSplit.start();
  steps.start();
  share.start();
  startAgain();
  const [state, grammar, told] = await Promise.all(["state", "grammar.json", "examples"].map((path) =>
    ask(path, {}).then((response) => response.json())));
  bench = { ...bench, ...state };
  examples = told;
  takeGrammar(grammar);
  tellProgram(bench.program);
  listExamples();
  startFolder();
  papers.all.get("source").give(FIRST_SOURCE);
  papers.all.get("limits").give(FIRST_LIMITS);
  papers.all.get("schedule").give("drain\n");
  document.body.dataset.ready = "yes";
}

attempt("start", start);
