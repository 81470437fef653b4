"use strict";

// The split by hand: where each instruction is done, changed by clicks, with what `check` says of it.

// The places of an instruction: a name, a title, what it means, and the two parts of its line in a split text. Stages
// are put in by `restage`.
const PLACES = [
  ["carried", "switch, carried", "before the server, for every packet; handed up to it", [0, "carried"]],
  ["both", "both", "on the switch for fast packets, and again by the server for the others", [0, "server"]],
  ["server", "server", "by the server alone", [null, "server"]],
  ["around", "switch, twice", "on the switch for fast packets, and again after the server for the others", [0, 0]],
  ["after", "switch, after", "on the way back from the server", [null, 0]],
];

const SPLIT_LINE = /^(0|[1-9][0-9]*) (-|[0-9]+) (carried|server|post ([0-9]+))$/;

// The parts of a split text, [{ before, slow }], where slow is a word or the stage after the server; or null where a
// line isn't in the form.
function splitPartsOf(text) {
  const lines = linesOf(text).filter((line) => !isSkipped(line));
  const parts = lines.slice(1, -1).map((line) => SPLIT_LINE.exec(line));
  const isWhole = lines[0] === `split 1 ${parts.length}` && lines[lines.length - 1] === "end"
    && parts.every((part, place) => part && Number(part[1]) === place);
  return isWhole ? parts.map(([, , before, slow, stage]) => ({
    before: before === "-" ? null : Number(before), slow: stage === undefined ? slow : Number(stage),
  })) : null;
}

const lineOfPart = ({ before, slow }, number) =>
  `${number} ${before === null ? "-" : before} ${typeof slow === "number" ? `post ${slow}` : slow}`;

function placeOfPart({ before, slow }) {
  const found = PLACES.find(([, , , [first, second]]) => (first === null) === (before === null)
    && (typeof second === "number" ? typeof slow === "number" : slow === second));
  return found ? found[0] : "";
}

// Gives each part the lowest stages that its operands in the same pass allow.
function restage(parts, instructions) {
  const depth = (number, stageOf) => {
    const { kind, operands } = instructions[number];
    const below = operands.map(({ instruction }) => stageOf(parts[instruction])).filter((stage) => stage !== null);
    return kind === "const" || kind === "field" ? 0 : 1 + Math.max(0, ...below);
  };
  parts.forEach((part, number) => {
    if (part.before !== null) {
      part.before = depth(number, ({ before }) => before);
    }
    if (typeof part.slow === "number") {
      part.slow = depth(number, ({ slow }) => (typeof slow === "number" ? slow : null));
    }
  });
}

// The counts of a line such as `ok accesses 0 stages 3 ..`.
function countsOfLine(text) {
  return new Map([...text.matchAll(/([a-z_]+) ([0-9]+)/g)].map(([, name, number]) => [name, Number(number)]));
}

// The limits as the page reads them, for bars alone: the program alone says what is exceeded.
function limitsOfPaper() {
  const read = readBeside(["limits"]).get("limits");
  return new Map([["accesses", 1], ...(read ? read.limits : [])]);
}

// A bar for each count: how much of its limit it takes.
function drawBars(counts, limits) {
  return makeWith("ul", "gauges list", [...counts].map(([name, have]) => {
    const allowed = limits.get(name);
    const isOver = allowed !== undefined && have > allowed;
    const used = make("span", isOver ? "used over" : "used");
    used.style.width = `${allowed ? Math.min(100, (100 * have) / allowed) : have > 0 ? 100 : 0}%`;
    const told = allowed === undefined ? "" : ` of ${grouped(allowed)}`;
    return makeWith("li", "gauge", [
      make("span", "name", name.replace("_", " ")),
      makeWith("span", "number", [make("b", "", grouped(have)), told]),
      makeWith("span", "bar", allowed === undefined ? [] : [used]),
    ]);
  }));
}

const handSplit = {
  listing: null, key: "", rows: [], drawn: null, counts: null, showsAll: false,

  // The program's instructions, as `compile .. shrink` lists them: every split of a source has the same ones.
  async load() {
    const key = JSON.stringify([papers.text("source"), papers.text("limits")]);
    if (this.key === key && this.listing) {
      return;
    }
    const answer = await callProgram("compile SRC LIMITS shrink", filesOf(["source", "limits"]));
    this.listing = answer.isDone ? readAnswer(answer.text) : null;
    this.key = answer.isDone ? key : "";
    this.refusal = answer.isDone ? "" : answer.refusal;
    this.counts = null;
  },

  // Takes what compile printed as the split to begin with.
  async take(text) {
    papers.all.get("split").give(text, "split.txt");
    panels.show("hand");
  },

  async begin(shrink) {
    const form = shrink ? "compile SRC LIMITS shrink" : "compile SRC LIMITS";
    const answer = await callProgram(form, filesOf(["source", "limits"]));
    if (answer.isDone) {
      await papers.all.get("split").giveAndCheck(answer.text);
      await this.open();
    } else {
      this.tell(answer);
    }
  },

  async beginAtServer() {
    await this.load();
    if (this.listing) {
      const parts = this.listing.instructions.map(() => ({ before: null, slow: "server" }));
      await papers.all.get("split").giveAndCheck(this.textOf(parts));
      await this.open();
    }
  },

  async open() {
    await this.load();
    const paper = papers.all.get("split");
    if (this.listing && paper.text.trim() === "") {
      await paper.giveAndCheck(this.listing.lines.join("\n") + "\n");
    }
    this.parts = this.listing ? splitPartsOf(paper.text) : null;
    this.draw();
    if (this.parts && !this.answer) {
      await paper.check();
    }
  },

  // The split as a text, after the listing of its instructions where that is there.
  textOf(parts) {
    const lines = this.listing ? this.listing.lines.filter((line) => line.startsWith("#")) : [];
    const counts = this.counts && [...this.counts].map(([name, number]) => `${name} ${number}`).join(" ");
    const comments = counts ? lines.map((line) => (line.startsWith("# accesses ") ? `# ${counts}` : line)) : lines;
    return [...comments, `split 1 ${parts.length}`, ...parts.map(lineOfPart), "end", ""].join("\n");
  },

  // The split as compile would print it, for the drawings; or null where it isn't a split that may be taken.
  async answerText() {
    await this.load();
    const parts = splitPartsOf(papers.text("split"));
    const answer = await callProgram("check SRC LIMITS SPLIT", filesOf(["source", "limits", "split"]));
    if (!this.listing || !parts || !answer.isDone) {
      return null;
    }
    this.counts = countsOfLine(answer.text);
    return this.textOf(parts);
  },

  // Moves an instruction of the split that the text spells now, and asks `check` at once.
  async move(number, [, , , [before, slow]]) {
    const parts = splitPartsOf(papers.text("split"));
    if (!parts || parts.length !== this.listing.instructions.length) {
      this.parts = parts;
      this.draw();
      return;
    }
    this.parts = parts;
    this.parts[number] = { before, slow };
    restage(this.parts, this.listing.instructions);
    this.moved = number;
    this.refresh();
    await papers.all.get("split").giveAndCheck(this.textOf(this.parts));
  },

  // What `check` has answered about the split.
  tell(answer) {
    this.answer = answer;
    this.counts = answer.isDone ? countsOfLine(answer.text) : null;
    const place = document.getElementById("hand-answer");
    if (answer.isDone) {
      place.replaceChildren(make("code", "right", answer.text.trim()), drawBars(this.counts, limitsOfPaper()));
    } else {
      const over = /^limit (\S+)(?: \S+)?: have ([0-9]+), allowed ([0-9]+)/.exec(answer.errors);
      place.replaceChildren(make("pre", "refusal", answer.refusal),
        ...(over ? [drawBars(new Map([[over[1], Number(over[2])]]), new Map([[over[1], Number(over[3])]]))] : []));
    }
    this.refresh();
  },

  draw() {
    const place = document.getElementById("hand-board");
    // The rows that stand are kept where they are of the same instructions, so that no click on one is lost.
    const wanted = this.parts && `${this.showsAll} ${this.parts.length} ${this.key}`;
    if (wanted && wanted === this.drawn) {
      this.refresh();
      return;
    }
    this.rows = [];
    this.drawn = null;
    if (!this.parts) {
      const why = this.refusal || "The text isn't a split of this source: begin with one of the splits above.";
      place.replaceChildren(make("pre", "refusal", why));
      return;
    }
    if (this.parts.length !== this.listing.instructions.length) {
      place.replaceChildren(make("p", "refusal", `The source becomes ${
        counted(this.listing.instructions.length, "instruction")}, and the split has ${
        this.parts.length}: begin with one of the splits above.`));
      return;
    }
    this.drawBoard(place);
    this.drawn = wanted;
    this.refresh();
  },

  drawBoard(place) {
    const read = readBeside(["source"]).get("source");
    takeMeaningsOf(new Map([["answer", this.listing], ["source", read]]));
    const statements = read && read.flat ? read.flat.instructions : [];
    const heads = ["instruction", ...PLACES.map(([, title]) => title)].map((title) => make("th", "text", title));
    const body = make("tbody");
    const isShown = ({ kind }) => this.showsAll || (kind !== "const" && kind !== "field");
    const shown = this.listing.instructions.filter(isShown);
    const more = fillRows(body, shown.map((instruction) => () => this.drawRow(instruction, statements)));
    place.replaceChildren(makeWith("div", "wide", [
      makeWith("table", "board", [makeWith("thead", "", [makeWith("tr", "", heads)]), body])]), more);
  },

  drawRow(instruction, statements) {
    const { number, block } = instruction;
    const statement = (statements[number] || {}).statement;
    const line = statement ? makeButton(`line ${statement.line}`, () => {
      papers.show(papers.all.get("source"));
      papers.all.get("source").editor.goTo({ line: statement.line, column: 1 });
    }) : null;
    const name = makeWith("th", "text", [
      make("span", "number", number), makeWith("span", `chip ${shapeOf(instruction)}`, [
        make("span", "word", wordOf(this.listing, instruction))]),
      ...(block === 0 ? [] : [make("small", "", `b${block}`)]), ...(line ? [line] : []),
    ]);
    const cells = PLACES.map((place) => {
      const button = makeButton("", () => attempt("check", () => this.move(number, place)));
      button.dataset.place = place[0];
      button.setAttribute("aria-label", `instruction ${number}: ${place[1]}`);
      button.title = place[2];
      return makeWith("td", `cell ${place[0]}`, [button]);
    });
    name.title = expressionOf(this.listing, { instruction: number, result: 0 }, 3);
    const row = makeWith("tr", "", [name, ...cells]);
    row.dataset.number = number;
    this.rows[number] = row;
    this.refreshRow(row, number);
    return row;
  },

  // Shows where each instruction is now, and the one that breaks a rule.
  refresh() {
    this.rows.forEach((row, number) => this.refreshRow(row, number));
  },

  refreshRow(row, number) {
    const part = this.parts[number];
    const taken = placeOfPart(part);
    row.querySelectorAll("button[data-place]").forEach((button) => {
      const isTaken = button.dataset.place === taken;
      const after = typeof part.slow === "number" ? part.slow : null;
      const stages = [part.before, after].filter((stage) => stage !== null).join(", ");
      button.textContent = isTaken ? (stages === "" ? "●" : `● ${stages}`) : "";
      button.setAttribute("aria-pressed", isTaken);
    });
    const broken = this.answer && !this.answer.isDone && /^split: rule ([0-9]+) at ([0-9]+)/.exec(this.answer.errors);
    const isBroken = Boolean(broken) && Number(broken[2]) === number;
    row.classList.toggle("broken", isBroken);
    row.classList.toggle("moved", this.moved === number);
    if (row.querySelector(".why")) {
      row.querySelector(".why").remove();
    }
    if (isBroken) {
      row.firstChild.append(make("small", "why", `breaks rule ${broken[1]}`));
    }
  },

  start() {
    const on = (name, act) => document.getElementById(name).addEventListener("click", () => attempt("check", act));
    on("hand-strict", () => this.begin(false));
    on("hand-shrink", () => this.begin(true));
    on("hand-server", () => this.beginAtServer());
    document.getElementById("hand-all").addEventListener("change", ({ target }) => {
      this.showsAll = target.checked;
      this.draw();
    });
    panels.openers.hand = () => attempt("check", () => this.open());
    papers.listeners.push((paper, answer) => this.hear(paper, answer));
  },

  // The program was asked about a text: what is shown here follows.
  hear(paper, answer) {
    if (paper.kind === "split") {
      this.tell(answer);
    }
    if (panels.shown === "hand" && ["source", "limits", "split"].includes(paper.kind)) {
      attempt("check", () => (paper.kind === "split" ? this.follow() : this.open()));
    }
  },

  // Shows what was typed into the split.
  async follow() {
    const parts = splitPartsOf(papers.text("split"));
    if (JSON.stringify(parts) !== JSON.stringify(this.parts)) {
      await this.open();
    }
  },
};
