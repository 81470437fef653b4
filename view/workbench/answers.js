"use strict";

// Shows what the program answered: the command line, its drawing, its text, and what can be downloaded.

// The command line, with the names that the texts have on the page.
function commandLine(words) {
  const names = new Map(papers.list.map(({ kind, file }) => [GIVEN_NAMES[kind], file]));
  return `./gallium ${words.map((word) => names.get(word) || word).join(" ")}`;
}

// The texts that an answer was made of, read by the page for its drawing; those that it can't read are left out.
function readBeside(kinds) {
  const readers = { source: readSource, limits: readLimits, trace: readTrace, schedule: readSchedule };
  const read = new Map();
  kinds.forEach((kind) => {
    try {
      read.set(kind, readers[kind](papers.text(kind)));
    } catch (refusal) {
      if (!(refusal instanceof Refusal)) {
        throw refusal;
      }
    }
  });
  if (read.has("source")) {
    read.get("source").flat = flatOf(read.get("source"));
  }
  return read;
}

function takeMeaningsOf(read) {
  const [answer, source] = [read.get("answer"), read.get("source")];
  const program = answer || (source && source.flat);
  const meanings = program ? new Meanings(program, source) : null;
  if (answer) {
    answer.meanings = meanings;
  }
  return meanings;
}

// The drawing of a split; `text` is what compile printed, or the like of a split by hand.
function drawSplit(text) {
  const read = readBeside(["source", "limits"]);
  const answer = readAnswer(text);
  read.set("answer", answer);
  takeMeaningsOf(read);
  shownTexts = read;
  const source = read.get("source");
  const isOwn = source && source.flat && !sourceAndAnswer({ source, answer, limits: read.get("limits") });
  return new SplitDrawing(answer, isOwn ? source : undefined, read.get("limits")).draw();
}

// The drawing of a report; `split` is the text of its split, where there is one.
function drawReport(text, split) {
  const read = readBeside(["source", "limits", "trace", "schedule"]);
  read.set("report", readReport(text));
  if (split) {
    read.set("answer", readAnswer(split));
  }
  const meanings = takeMeaningsOf(read);
  shownTexts = read;
  return new RunDrawing(read.get("report"), { ...Object.fromEntries(read), meanings }).draw();
}

function drawRun(text) {
  const read = readBeside(["source", "trace"]);
  read.set("run", readRun(text));
  const meanings = takeMeaningsOf(read);
  shownTexts = read;
  return new SerialDrawing(read.get("run"), read.get("trace"), meanings).draw();
}

// The drawing that a drawer makes, or a line that says why there is none.
function drawnOrTold(drawer) {
  try {
    return drawer();
  } catch (fault) {
    return make("p", "note", `The page can't draw this: ${fault.message}.`);
  }
}

const answers = {
  place: () => document.getElementById("drawing"),

  // Shows an answer: its command line, then what `more` draws of it, and the text as it is.
  show(title, answer, more) {
    panels.show("answer");
    const parts = [this.head(title, answer)];
    if (!answer.isDone) {
      parts.push(make("pre", "refusal", answer.refusal || `It ended with code ${answer.code}.`));
    } else {
      parts.push(...(more ? more(answer) : []), ...this.asText(answer));
    }
    this.place().replaceChildren(...parts);
    recountHidden.forEach((recount) => recount());
  },

  // Says that there is no answer, and why.
  fail(title, message) {
    panels.show("answer");
    this.place().replaceChildren(make("h2", "", title), make("pre", "refusal", message));
  },

  head(title, answer) {
    const code = make("span", answer.isDone ? "code" : "code wrong", `exit code ${answer.code}`);
    return makeWith("header", "answer-head", [make("code", "line", commandLine(answer.command)), code,
      make("span", "time", `${answer.milliseconds} ms`)]);
  },

  // The text as it is, to be read and downloaded.
  asText(answer) {
    const name = this.nameOf(answer.command);
    const tools = [makeButton(`Download ${name}`, () => download(name, answer.bytes), "Byte for byte what it printed")];
    if (answer.command.join(" ").startsWith("pcap out")) {
      const size = `${counted(answer.bytes.length, "byte")} of a capture.`;
      return [makeWith("p", "tools", tools), make("p", "note", size)];
    }
    const { text } = answer;
    const shown = make("pre", "printed", text.length > 200000 ? `${text.slice(0, 200000)}\n ..` : text);
    const copy = makeButton("Copy", () => navigator.clipboard.writeText(text), "Copy the text");
    const folded = makeWith("details", "", [make("summary", "", "What it printed"), shown]);
    folded.open = text.length < 3000;
    return [makeWith("p", "tools", [...tools, copy]), folded];
  },

  nameOf([word, second]) {
    const names = { run: "answer.txt", compile: "split.txt", check: "check.txt", replay: "report.txt",
      lossy: "report.txt", gen: "summary.txt", audit: "audit.txt", chain: "composed.gal" };
    return word === "pcap" ? (second === "in" ? "trace.txt" : "released.pcap") : names[word] || `${word}.txt`;
  },
};

// The tabs on the right.
const panels = {
  names: ["answer", "hand", "steps", "share"], shown: "answer", openers: {},

  show(name) {
    this.shown = name;
    this.names.forEach((one) => {
      document.getElementById(`panel-${one}`).hidden = one !== name;
      document.getElementById(`tab-${one}`).setAttribute("aria-selected", one === name);
    });
    if (this.openers[name]) {
      this.openers[name]();
    }
  },

  start() {
    this.names.forEach((name) =>
      document.getElementById(`tab-${name}`).addEventListener("click", () => this.show(name)));
    this.show("answer");
  },
};
