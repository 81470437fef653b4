"use strict";

// The texts: a tab with an editor for each, and what the program says of each half a second after the last key.

const CHECK_DELAY = 500;
const FIRST_SOURCE = "process {\n  send 2:8;\n}\n";
const FIRST_LIMITS = "table_bits = 100000000\nstages = 32\nwriteback = 16\ntransfer_bytes = 64\n";
// The source that is asked where a trace, a schedule or limits are read for their own sake.
const PLAIN_SOURCE = "process { drop; }\n";
const CLASS_NAME = /^[A-Za-z][A-Za-z0-9_]{0,63}\.gal$/;

// The names of the texts in the folder of a call.
const GIVEN_NAMES = { source: "source.gal", limits: "limits.toml", trace: "trace.txt", schedule: "schedule.txt",
  split: "split.txt", report: "report.txt", chain: "conf" };

// Whether a schedule is one over links: such a line is in no other.
const isOverLinks = (text) => /^[xyz] /m.test(text);

// How the program is asked about each kind of text: [command, files].
const QUESTIONS = {
  source: (text) => ["run SRC TRACE", { SRC: text, TRACE: "" }],
  limits: (text) => ["compile SRC LIMITS", { SRC: PLAIN_SOURCE, LIMITS: text }],
  trace: (text) => ["run SRC TRACE", { SRC: PLAIN_SOURCE, TRACE: text }],
  schedule: (text) => (isOverLinks(text)
    ? ["lossy SRC TRACE SCHED LIMITS", { SRC: PLAIN_SOURCE, TRACE: "", SCHED: text, LIMITS: FIRST_LIMITS }]
    : ["replay SRC TRACE SCHED", { SRC: PLAIN_SOURCE, TRACE: "", SCHED: text }]),
  split: (text) => ["check SRC LIMITS SPLIT",
    { SRC: papers.text("source"), LIMITS: papers.text("limits"), SPLIT: text }],
  report: (text) => ["audit SRC TRACE REPORT",
    { SRC: papers.text("source"), TRACE: papers.text("trace"), REPORT: text }],
  chain: () => ["chain CONF", papers.chainFiles()],
  class: (text) => ["run SRC TRACE", { SRC: text, TRACE: "" }],
};

// What is read together with a text of a kind.
const DEPENDENTS = { source: ["split", "report"], limits: ["split"], trace: ["report"], class: ["chain"] };

class Paper {
  constructor(kind, title, file, hint) {
    Object.assign(this, { kind, title, file, hint, version: 0, state: "", refusal: "", timer: null });
    this.editor = new Editor(title, kind === "class" ? "source" : kind, () => this.touch());
    this.tab = makeButton("", () => papers.show(this));
    this.tab.setAttribute("role", "tab");
    this.told = make("div", "told-refusal");
    this.told.setAttribute("role", "status");
    this.element = makeWith("div", "paper", [this.editor.element, this.told]);
    this.element.setAttribute("role", "tabpanel");
    this.element.setAttribute("aria-label", title);
  }

  get text() {
    return this.editor.text;
  }

  // Gives the paper another text, from a file, an example or an answer.
  give(text, file) {
    this.editor.text = text;
    this.file = file || this.file;
    this.touch();
  }

  // Gives it a text, and asks the program at once.
  giveAndCheck(text) {
    this.give(text);
    clearTimeout(this.timer);
    return this.check();
  }

  // Something was changed: the program is asked when no further change comes for a while.
  touch() {
    this.version += 1;
    this.tell("", "");
    clearTimeout(this.timer);
    if (this.text.trim() !== "" || this.kind === "source") {
      this.timer = setTimeout(() => this.check(), CHECK_DELAY);
    }
  }

  async check() {
    const { version } = this;
    const [form, files] = QUESTIONS[this.kind](this.text);
    let answer;
    try {
      answer = await callProgram(form, files);
    } catch (fault) {
      this.tell("unknown", fault.message);
      return;
    }
    if (version !== this.version) {
      return;
    }
    if (answer.isDone) {
      this.tell("right", "");
    } else {
      this.refuse(answer);
    }
    papers.checked(this, answer);
  }

  // Says what the program refuses, in the paper that the refusal is about.
  refuse(answer) {
    const about = papers.about(answer, this);
    if (about === this) {
      this.tell("refused", answer.refusal, answer.place);
    } else {
      about.tell("refused", answer.refusal, answer.place);
      this.tell("unknown", `This can't be checked, since ${about.title.toLowerCase()} is refused: ${
        answer.errors.trim()}`);
    }
  }

  tell(state, refusal, place) {
    this.state = state;
    this.refusal = refusal;
    this.editor.showMark(state === "refused" && place ? { line: place.line, column: place.column } : null);
    this.told.replaceChildren();
    if (refusal) {
      const goTo = place ? [makeButton(`line ${place.line}`, () => this.editor.goTo(place), "Go to the place")] : [];
      this.told.append(...goTo, make("pre", "", refusal));
    }
    this.told.className = `told-refusal ${state}`;
    this.drawTab();
  }

  drawTab() {
    const dots = { right: "✓", refused: "✗", unknown: "?", "": "" };
    const states = { right: "accepted", refused: "refused", unknown: "not checked", "": "" };
    const dot = make("span", `dot ${this.state}`, dots[this.state]);
    dot.title = states[this.state];
    this.tab.replaceChildren(make("span", "", this.title), dot);
    this.tab.setAttribute("aria-selected", papers.shown === this);
    this.tab.dataset.state = this.state;
  }
}

const papers = {
  all: new Map(), shown: null, listeners: [], classes: new Map(),

  start() {
    const add = (...words) => this.all.set(words[0], new Paper(...words));
    add("source", "Source", "source.gal", "What the middlebox does to a packet.");
    add("limits", "Limits", "limits.toml", "What the switch has: four lines.");
    add("trace", "Trace", "trace.txt", "The packets: a port, a space and the bytes. A capture that is dropped here "
      + "becomes a trace.");
    add("schedule", "Schedule", "schedule.txt", "The events of a replay, a line for each; `drain` ends it.");
    add("split", "Split", "split.txt", "A split by hand. The tab “Split by hand” changes it by clicks.");
    add("report", "Report", "report.txt", "What `replay` printed, to be audited.");
    add("chain", "Chain", "conf", "A chain of elements: NAME :: CLASS; and NAME [0] -> [0] NAME;");
    this.show(this.all.get("source"));
  },

  text(kind) {
    return this.all.get(kind).text;
  },

  get list() {
    return [...this.all.values(), ...this.classes.values()];
  },

  byFile(name) {
    return this.list.find((paper) => paper.file === name);
  },

  // The texts of a chain: the chain and its classes.
  chainFiles() {
    const classes = [...this.classes.values()].map(({ file, text }) => [file, text]);
    return { CONF: this.text("chain"), ...Object.fromEntries(classes) };
  },

  addClass(file, text) {
    const paper = this.classes.get(file) || new Paper("class", file, file, "A class of the chain.");
    this.classes.set(file, paper);
    paper.give(text);
    this.drawTabs();
    return paper;
  },

  // Which paper an answer's place is in, of those that the call was made of.
  about({ place, command }, asked) {
    const [kind] = Object.entries(GIVEN_NAMES).find(([, name]) => place && name === place.file) || [];
    if (!place || (place.file === "source.gal" && asked.kind === "class")) {
      return asked;
    }
    return this.classes.get(place.file.replace(/^.*\//, "")) || this.all.get(kind) || asked;
  },

  show(paper) {
    this.shown = paper;
    document.getElementById("papers").replaceChildren(paper.element);
    document.getElementById("paper-hint").textContent = paper.hint;
    this.drawTabs();
    paper.editor.draw();
  },

  drawTabs() {
    const isChain = this.shown.kind === "chain" || this.shown.kind === "class";
    const shown = this.list.filter(({ kind }) => kind !== "class" || isChain);
    document.getElementById("paper-tabs").replaceChildren(...shown.map(({ tab }) => tab));
    document.getElementById("class-tools").hidden = !isChain;
    shown.forEach((paper) => paper.drawTab());
  },

  // Tells the listeners that the program was asked about a text. Where it was accepted, the texts that are read with it
  // are asked about anew.
  checked(paper, answer) {
    this.listeners.forEach((listener) => listener(paper, answer));
    const dependents = answer.isDone ? DEPENDENTS[paper.kind] || [] : [];
    dependents.map((kind) => this.all.get(kind)).filter(({ text }) => text.trim() !== "").forEach((one) => one.touch());
  },
};

// Which paper a text that was dropped or opened belongs in, by its name and how it begins; or null.
function paperOfFile(name, text) {
  if (name === "conf" || /^\s*\w+\s*::\s*\w+\s*;/m.test(text)) {
    return "chain";
  }
  const papersOfKinds = { answer: "split", nothing: null, run: null };
  try {
    const kind = kindOf(text, name);
    return kind in papersOfKinds ? papersOfKinds[kind] : kind;
  } catch (refusal) {
    return null;
  }
}

const isCapture = (bytes) => {
  const first = [...bytes.slice(0, 4)].map((byte) => byte.toString(16).padStart(2, "0")).join("");
  return ["a1b2c3d4", "d4c3b2a1", "a1b23c4d", "4d3cb2a1"].includes(first);
};

function toBase64(bytes) {
  const pieces = [];
  for (let at = 0; at < bytes.length; at += 30000) {
    pieces.push(String.fromCharCode(...bytes.slice(at, at + 30000)));
  }
  return btoa(pieces.join(""));
}

// A capture becomes a trace, all packets on the port that the commands name.
async function takeCapture(bytes) {
  const port = document.getElementById("port").value;
  const answer = await callProgram("pcap in PCAP PORT", { PCAP: toBase64(bytes) }, { PORT: port });
  answers.show("pcap in", answer);
  if (answer.isDone) {
    papers.all.get("trace").give(answer.text);
    papers.show(papers.all.get("trace"));
  }
}

// Takes a file's bytes: a capture, or a text of one of the kinds.
async function takeBytes(name, bytes, wanted) {
  if (isCapture(bytes)) {
    return takeCapture(bytes);
  }
  let text;
  try {
    text = new TextDecoder("utf-8", { fatal: true, ignoreBOM: true }).decode(bytes);
  } catch (fault) {
    throw new Failed(`${name} is neither a text in UTF-8 nor a capture in the classic libpcap format.`);
  }
  const isClass = papers.shown.kind === "chain" || papers.shown.kind === "class";
  if (isClass && CLASS_NAME.test(name)) {
    return papers.show(papers.addClass(name, text));
  }
  const paper = papers.all.get(wanted || paperOfFile(name, text) || papers.shown.kind);
  paper.give(text, name);
  return papers.show(paper);
}
