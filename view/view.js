"use strict";

// The page: takes texts, says what they are, and shows the drawings that can be made of them.

const texts = new Map();
const drawing = document.getElementById("drawing");
let pasted = 0;
let shownRun = null;

// So many characters of a long line stand before a place that is marked in it, and after it.
const SHOWN_BEFORE = 60;
const SHOWN_AFTER = 200;

// A line of a text, with a mark at a column where there is one to blame.
function drawLine(line, column) {
  if (column === null) {
    return make("code", "shown-line", shortened(line));
  }
  const characters = [...line];
  const from = Math.max(0, column - 1 - SHOWN_BEFORE);
  const until = column + SHOWN_AFTER;
  const part = (start, end) => characters.slice(start, end).join("");
  return makeWith("code", "shown-line", [
    `${from > 0 ? "… " : ""}${part(from, column - 1)}`, make("mark", "", part(column - 1, column) || " "),
    `${part(column, until)}${until < characters.length ? " …" : ""}`,
  ]);
}

// Says where a text isn't in the form, and what is wrong there.
function refuse(name, { line, column, message }) {
  const lines = linesOf(texts.get(name) ? texts.get(name).text : "");
  const place = [name, ...(line ? [`line ${grouped(line)}`] : []), ...(column ? [`column ${grouped(column)}`] : [])];
  document.getElementById("refusal").replaceChildren(
    make("b", "", `${place.join(", ")}: `), ...proseOf(`${message}.`),
    ...(line && lines[line - 1] !== undefined ? [drawLine(lines[line - 1], column)] : []));
}

// Reads all texts. Returns what they say, by kind; or null where one of them isn't in the form, which it then says.
function readTexts() {
  const read = new Map();
  for (const [name, { text }] of texts) {
    try {
      const kind = kindOf(text, name);
      read.set(kind, TEXT_KINDS.get(kind).read(text));
    } catch (refusal) {
      if (!(refusal instanceof Refusal)) {
        throw refusal;
      }
      refuse(name, refusal);
      return null;
    }
  }
  return read;
}

// A split that lists no instructions is one of the instructions of its source.
function takeSplit(read) {
  const [split, source] = [read.get("split"), read.get("source")];
  if (split && source && source.flat && source.flat.instructions.length === split.parts.length) {
    read.set("answer", answerOfSplit(split, source.flat));
  }
}

// What numbers mean is said by a flat program: the one of the answer, or the one that the page makes from the source.
function takeMeanings(read) {
  const [answer, source] = [read.get("answer"), read.get("source")];
  const program = answer || (source && source.flat);
  const meanings = program ? new Meanings(program, source) : null;
  if (answer) {
    answer.meanings = meanings;
  }
  return meanings;
}

// Says which texts don't belong together, and why.
function tellStrangers(strangers) {
  const isOf = (kind, text) => text.kind === kind || (kind === "answer" && text.kind === "split");
  const nameOf = (kind) => {
    const [name, text] = [...texts].find((one) => isOf(kind, one[1]));
    return `${name} (${TEXT_KINDS.get(text.kind).title})`;
  };
  document.getElementById("refusal").replaceChildren(
    make("b", "", "These texts don't belong together, so nothing is drawn."),
    makeWith("ul", "", strangers.map(({ kinds, why }) =>
      makeWith("li", "stranger", [make("b", "", kinds.map(nameOf).join(" and ")), ": ", ...proseOf(`${why}.`)]))),
    make("p", "", "Take one of them away with its ×, or give the one that belongs to the others."));
}

// Reads all texts anew and draws what they say. Where one of them isn't in the form, or where they don't belong
// together, nothing is drawn.
function redraw() {
  const isEmpty = texts.size === 0;
  drawing.replaceChildren();
  recountHidden.clear();
  shownRun = null;
  ["refusal", "lines", "note"].forEach((name) => document.getElementById(name).replaceChildren());
  showTexts();
  if (document.body.classList.contains("empty") !== isEmpty || isEmpty) {
    document.getElementById("examples").open = isEmpty;
  }
  document.body.classList.toggle("empty", isEmpty);
  const read = readTexts();
  shownTexts = read || new Map();
  if (!read) {
    return;
  }
  if (read.has("source")) {
    read.get("source").flat = flatOf(read.get("source"));
  }
  takeSplit(read);
  const meanings = takeMeanings(read);
  const strangers = strangersOf(read);
  if (strangers.length === 0 && read.has("report")) {
    shownRun = new RunDrawing(read.get("report"), { ...Object.fromEntries(read), meanings });
    strangers.push(...shownRun.strangers);
  }
  if (strangers.length > 0) {
    shownRun = null;
    tellStrangers(strangers);
    return;
  }
  drawAll(read, meanings);
}

function drawAll(read, meanings) {
  if (shownRun) {
    drawing.append(shownRun.draw());
  }
  if (read.has("run")) {
    drawing.append(new SerialDrawing(read.get("run"), read.get("trace"), meanings).draw());
  }
  if (read.has("answer")) {
    drawing.append(new SplitDrawing(read.get("answer"), read.get("source"), read.get("limits")).draw());
  }
  if (texts.size > 0 && drawing.children.length === 0) {
    document.getElementById("refusal").replaceChildren(...proseOf(missingFor(read)));
  }
  recountHidden.forEach((recount) => recount());
}

// What is missing where nothing is drawn.
function missingFor(read) {
  const source = read.get("source");
  if (source && !source.flat) {
    return `The source becomes more than ${grouped(MOST_INSTRUCTIONS)} instructions, so it can't be split.`;
  }
  return read.has("split")
    ? "A split that lists no instructions is drawn with its source beside it: give the source too."
    : "Nothing is drawn yet: give what `compile`, `replay` or `run` prints too.";
}

function showTexts() {
  document.getElementById("texts").replaceChildren(...[...texts].map(([name, { kind }]) => {
    const remove = make("button", "", "×");
    remove.type = "button";
    remove.setAttribute("aria-label", `take ${name} away`);
    remove.addEventListener("click", () => {
      texts.delete(name);
      redraw();
    });
    return makeWith("li", "", [make("b", "", name), make("span", "", kind ? TEXT_KINDS.get(kind).title : "?"), remove]);
  }));
}

function kindIfAny(text, name) {
  try {
    return kindOf(text, name);
  } catch (refusal) {
    return null;
  }
}

// Takes texts with their names. One of a kind that is there already takes its place.
function take(given) {
  const isSame = (one, other) => one === other || (SPLIT_KINDS.includes(one) && SPLIT_KINDS.includes(other));
  for (const [name, text] of given) {
    const kind = kindIfAny(text, name);
    [...texts].filter(([other, before]) => other === name || (kind && isSame(kind, before.kind)))
      .forEach(([other]) => texts.delete(other));
    texts.set(name, { text, kind });
  }
  redraw();
}

function takeFiles(files) {
  Promise.all([...files].map((file) => file.text().then((text) => [file.name, text]))).then(take);
}

// The examples are named in the address after the #.
const exampleInAddress = () => decodeURIComponent(location.hash.slice(1));

function takeExample() {
  const name = exampleInAddress();
  const example = EXAMPLES.find((one) => one.name === name);
  document.querySelectorAll(".examples a").forEach((link) => {
    link.removeAttribute("aria-current");
    if (example && link.hash === location.hash) {
      link.setAttribute("aria-current", "true");
    }
  });
  if (example) {
    texts.clear();
    document.getElementById("examples").open = false;
    take(Object.entries(example.texts));
  }
}

// How large an example is, by the first lines of its answer.
function sizeOf(example) {
  const lines = linesOf(Object.values(example.texts)[0]);
  if (example.kind === "serials") {
    return counted(lines.filter((line) => line.startsWith("packet ")).length, "packet");
  }
  const told = (line, word) => counted(Number(new RegExp(`${word}s ([0-9]+)`).exec(line)[1]), word);
  if (lines[0] === "report 1") {
    return `${told(lines[1], "packet")}, ${told(lines[2], "event")}`;
  }
  return lines[0].startsWith("# instructions ") ? `${told(lines[0], "instruction")}, ${told(lines[1], "stage")}`
    : counted(lines.filter((line) => /^[0-9]/.test(line)).length, "instruction");
}

function start() {
  const paste = document.getElementById("paste");
  for (const example of EXAMPLES) {
    const link = make("a", "", example.title);
    link.href = `#${example.name}`;
    document.getElementById(example.kind).append(makeWith("li", "", [link, make("small", "", sizeOf(example))]));
  }
  document.querySelectorAll(".fields input").forEach((field) =>
    field.addEventListener("change", () => takeFiles(field.files)));
  document.getElementById("draw").addEventListener("click", () => {
    pasted += 1;
    take([[`pasted text ${pasted}`, paste.value]]);
    paste.value = "";
  });
  document.addEventListener("dragover", (moved) => moved.preventDefault());
  document.addEventListener("drop", (dropped) => {
    dropped.preventDefault();
    takeFiles(dropped.dataTransfer.files);
  });
  drawing.addEventListener("pointerover", (moved) => tell(moved.target));
  drawing.addEventListener("focusin", (moved) => tell(moved.target));
  window.addEventListener("hashchange", takeExample);
  redraw();
  takeExample();
  const asked = new URLSearchParams(location.search);
  if (asked.has("count")) {
    countExamples(asked);
  }
}

start();
