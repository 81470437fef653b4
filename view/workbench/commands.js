"use strict";

// The commands, as buttons with their arguments.

const inputOf = (name) => document.getElementById(name).value;

// How a replay is split: its command, and the files that it needs besides.
const WAYS = {
  strict: ["replay SRC TRACE SCHED LIMITS", ["limits"]],
  shrink: ["replay SRC TRACE SCHED LIMITS shrink", ["limits"]],
  hand: ["replay SRC TRACE SCHED LIMITS split SPLIT", ["limits", "split"]],
  server: ["replay SRC TRACE SCHED", []],
};
const ROLES = { source: "SRC", trace: "TRACE", schedule: "SCHED", limits: "LIMITS", split: "SPLIT", report: "REPORT" };

const filesOf = (kinds) => Object.fromEntries(kinds.map((kind) => [ROLES[kind], papers.text(kind)]));
const wayOfSplit = () => inputOf("way");

// The command of the replay that is chosen, and its files.
function chosenReplay(schedule) {
  const [form, more] = WAYS[wayOfSplit()];
  const files = filesOf(["source", "trace", "schedule", ...more]);
  return [form, schedule === undefined ? files : { ...files, SCHED: schedule }];
}

// What compile prints of the split that a replay takes, or null where the server does everything or there is none.
async function splitText() {
  const way = wayOfSplit();
  if (way === "server") {
    return null;
  }
  if (way === "hand") {
    return handSplit.answerText();
  }
  const form = way === "shrink" ? "compile SRC LIMITS shrink" : "compile SRC LIMITS";
  const answer = await callProgram(form, filesOf(["source", "limits"]));
  return answer.isDone ? answer.text : null;
}

async function run() {
  const answer = await callProgram("run SRC TRACE", filesOf(["source", "trace"]));
  answers.show("run", answer, ({ text }) => [drawnOrTold(() => drawRun(text)), captureTools(() => sentOfRun(text))]);
}

async function compile() {
  const form = wayOfSplit() === "shrink" ? "compile SRC LIMITS shrink" : "compile SRC LIMITS";
  const answer = await callProgram(form, filesOf(["source", "limits"]));
  const fast = answer.isDone && papers.text("trace").trim() !== "" ? await shareOfTrace(form.includes("shrink")) : null;
  answers.show("compile", answer, ({ text }) => [
    ...(fast ? [fast] : []),
    makeWith("p", "tools", [makeButton("Change this split by hand", () => handSplit.take(text))]),
    drawnOrTold(() => drawSplit(text)),
  ]);
}

async function check() {
  const answer = await callProgram("check SRC LIMITS SPLIT", filesOf(["source", "limits", "split"]));
  answers.show("check", answer, ({ text }) => [drawBars(countsOfLine(text), limitsOfPaper())]);
}

async function replay() {
  const [form, files] = chosenReplay();
  const answer = await callProgram(form, files);
  const split = answer.isDone ? await splitText() : null;
  answers.show("replay", answer, ({ text }) => [
    shareLine(text), reportTools(text), drawnOrTold(() => drawReport(text, split)),
  ]);
}

async function lossy() {
  const answer = await callProgram("lossy SRC TRACE SCHED LIMITS", filesOf(["source", "trace", "schedule", "limits"]));
  answers.show("lossy", answer, ({ text }) => [reportTools(text), drawnOrTold(() => drawReport(text, null))]);
}

// A report can be audited, and what it released can be had as a capture.
function reportTools(text) {
  const take = makeButton("Audit this report", () => {
    // The lines of links stand after a report, and are no part of it.
    papers.all.get("report").give(text.replace(/^link .*\n/gm, ""));
    attempt("audit", audit);
  });
  return makeWith("p", "tools", [take, ...captureTools(() => sentOfReport(text)).children]);
}

async function audit() {
  const answer = await callProgram("audit SRC TRACE REPORT", filesOf(["source", "trace", "report"]));
  const told = "The source, run on the packets in the order of the report, does just what the report says.";
  answers.show("audit", answer, () => [make("p", "right", told)]);
}

async function chain() {
  const answer = await callProgram("chain CONF", papers.chainFiles());
  answers.show("chain", answer, ({ text }) => [makeWith("p", "tools", [
    makeButton("Take it as the source", () => {
      papers.all.get("source").give(text, "composed.gal");
      papers.show(papers.all.get("source"));
    }),
  ])]);
}

async function generate() {
  const answer = await callProgram("gen SEED COUNT", {}, { SEED: inputOf("seed"), COUNT: inputOf("count") });
  answers.show("gen", answer);
}

// The packets that left, as lines of a trace: those of a run in their order, those of a report as they came out.
const sentOfRun = (text) => traceOfSent(readRun(text).packets);
const sentOfReport = (text) => traceOfSent(readReport(text).packets
  .filter(({ released }) => released).sort((one, other) => one.released - other.released));

function traceOfSent(packets) {
  return packets.filter(({ port }) => port !== null && port !== undefined)
    .map(({ port, hex }) => `${port} ${hex || "-"}\n`).join("");
}

function captureTools(traceOf) {
  return makeWith("p", "tools", [
    makeButton("Released packets as a capture", () => attempt("pcap out", () => saveCapture(traceOf())),
      "A file for tcpdump and Wireshark"),
    makeButton("Released packets as a trace", () => download("released.txt", traceOf())),
  ]);
}

async function saveCapture(trace) {
  const words = { ORDER: inputOf("order"), UNIT: inputOf("unit") };
  const answer = await callProgram("pcap out TRACE ORDER UNIT", { TRACE: trace }, words);
  if (answer.isDone) {
    download("released.pcap", answer.bytes);
  } else {
    answers.show("pcap out", answer);
  }
}

// Does what a button asks; a failure is shown, and leaves the page as it was.
async function attempt(title, act) {
  try {
    await act();
  } catch (fault) {
    answers.fail(title, fault instanceof Failed || fault instanceof Refusal ? fault.message : `${fault}`);
  }
}

function startCommands() {
  const acts = { run, compile, check, replay, lossy, audit, chain, gen: generate,
    "pcap-out": () => saveCapture(papers.text("trace")) };
  Object.entries(acts).forEach(([name, act]) =>
    document.getElementById(`do-${name}`).addEventListener("click", () => attempt(name, act)));
  document.getElementById("capture").addEventListener("change", ({ target }) => takeFile(target.files[0]));
  document.getElementById("stop").addEventListener("click", () => calls.stop());
}
