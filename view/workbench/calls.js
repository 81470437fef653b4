"use strict";

// Calls of the program through the server, one at a time.

const BASE = location.pathname;
// What the server says of itself: the program, the folder, and its bounds.
let bench = { program: { proved: false, told: "" }, folder: null, seconds: 20, bytes: 0 };

// A call that gave no answer: stopped, over its time or its output, or not taken by the server.
class Failed extends Error {}

const ENDS = new Map([
  ["stopped", () => "It was stopped."],
  ["time", () => `It was ended after ${bench.seconds} seconds, the most that a call may take.`],
  ["output", () => "It was ended at 64 MiB of output, the most that a call may write."],
]);

const encodeText = (text) => new TextEncoder().encode(text);

// What the program answered: its arguments, its exit code, its line on standard error, what that means and where; and
// the bytes that it wrote.
class Answer {
  constructor(told, bytes) {
    Object.assign(this, told);
    this.bytes = bytes;
  }

  get isDone() {
    return this.code === 0;
  }

  get text() {
    return new TextDecoder("utf-8", { ignoreBOM: true }).decode(this.bytes);
  }

  // The refusal's line, and what it means.
  get refusal() {
    return [this.errors.trim(), this.words.trimEnd()].filter(Boolean).join("\n");
  }
}

async function ask(path, options) {
  let response;
  try {
    response = await fetch(`${BASE}${path}`, options);
  } catch (fault) {
    throw new Failed("The workbench doesn't answer. Is ./workbench still running?");
  }
  if (!response.ok) {
    throw new Failed(`The workbench refuses: ${(await response.text()).trim()}.`);
  }
  return response;
}

const calls = {
  last: Promise.resolve(), current: null, since: 0, count: 0, timer: null,

  // Asks in turn: after all calls that were asked for before.
  async inTurn(path, words, body) {
    const before = this.last;
    let end;
    this.last = new Promise((resolve) => { end = resolve; });
    await before;
    this.count += 1;
    this.current = { name: `call${this.count}x${Date.now().toString(36)}`, words };
    this.since = Date.now();
    showProgress();
    try {
      const text = JSON.stringify({ ...body, name: this.current.name });
      if (bench.bytes && text.length > bench.bytes) {
        throw new Failed("These texts are too long for one call.");
      }
      return await ask(path, { method: "POST", body: text });
    } finally {
      this.current = null;
      showProgress();
      end();
    }
  },

  stop() {
    if (this.current) {
      ask("stop", { method: "POST", body: JSON.stringify({ name: this.current.name }) }).catch(() => {});
    }
  },
};

function failOf(ended) {
  if (ENDS.has(ended)) {
    throw new Failed(ENDS.get(ended)());
  }
}

// Calls the program by a command such as "run SRC TRACE", with the texts of its files and its other arguments.
async function callProgram(form, files, words) {
  const response = await calls.inTurn("call", form.split(" ")[0], { form, files, words: words || {} });
  const told = JSON.parse(decodeURIComponent(response.headers.get("X-Answer")));
  failOf(told.ended);
  return new Answer(told, new Uint8Array(await response.arrayBuffer()));
}

// Replays under several schedules, each the first lines of the one in `files` and some lines after them. Of each the
// numbers of events and idle ones are returned, or null where the program refused.
async function callVariants(form, files, variants) {
  const response = await calls.inTurn("variants", "replay", { form, files, variants });
  return (await response.json()).map(({ ended, head }) => {
    failOf(ended);
    const events = /^events ([0-9]+) idle ([0-9]+)$/.exec(head[2] || "");
    return events && { events: Number(events[1]), idle: Number(events[2]) };
  });
}

// Says which call runs, and for how long.
function showProgress() {
  const place = document.getElementById("progress");
  const since = Date.now() - calls.since;
  place.classList.toggle("runs", calls.current !== null && since > 250);
  if (calls.current) {
    const seconds = Math.floor(since / 1000);
    place.firstElementChild.textContent = `${calls.current.words} runs${seconds > 0 ? `, ${seconds} s` : ""} `;
    clearTimeout(calls.timer);
    calls.timer = setTimeout(showProgress, 300);
  }
}

// Hands bytes or a text to the browser as a file.
function download(name, content) {
  const link = make("a");
  link.href = URL.createObjectURL(new Blob([content], { type: "application/octet-stream" }));
  link.download = name;
  document.body.append(link);
  link.click();
  link.remove();
  setTimeout(() => URL.revokeObjectURL(link.href), 10000);
}

function makeButton(title, act, hint) {
  const button = make("button", "", title);
  button.type = "button";
  if (hint) {
    button.title = hint;
  }
  button.addEventListener("click", act);
  return button;
}
