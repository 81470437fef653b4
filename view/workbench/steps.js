"use strict";

// The schedule by hand: events by clicks, one after the other, with the world drawn as it goes. The program replays the
// events up to the place where one is; it also says which further events would be idle there.

const MOST_STEPS_BY_HAND = 4000;
const MOST_PLACES = 64;
const MOST_COMMANDS = 2000;
const MOST_VERSIONS = 40;

const EVENTS = [
  ["a", "admit", "the switch takes the next packet"],
  ["s", "stage", "a pass under way takes its next stage"],
  ["u", "run", "the server runs a packet that was sent up"],
  ["c", "send", "the next command to the switch is sent"],
  ["w", "apply", "the switch applies the next command"],
  ["k", "acknowledge", "the next command is acknowledged"],
  ["h", "let go", "the server lets go of an output that it holds"],
  ["d", "come down", "the switch takes a packet that comes down"],
];
const LISTS = { s: "passes", u: "up", h: "held", d: "down" };

const lineOfEvent = ({ letter, item }) => (LISTS[letter] ? `${letter} ${item}` : letter);

const steps = {
  at: 0, turn: 0, idle: new IdleCounts(), live: null, world: null, key: "", prefix: "",

  // The schedule of the paper, as far as it can be stepped through.
  read() {
    const text = papers.text("schedule");
    if (isOverLinks(text)) {
      throw new Failed("This is a schedule over links: “lossy” replays it, and it can't be stepped through.");
    }
    this.schedule = readSchedule(text);
    if (this.schedule.events.length > MOST_STEPS_BY_HAND) {
      throw new Failed(`At most ${grouped(MOST_STEPS_BY_HAND)} events can be stepped through.`);
    }
  },

  get length() {
    return this.schedule.events.length + (this.schedule.drain ? 1 : 0);
  },

  // The lines of the schedule up to a place, `drain` among them where the place is after it.
  textUpTo(place) {
    const { events, lines, fine } = this.schedule;
    if (place > events.length) {
      return `${lines.join("\n")}\n`;
    }
    const first = fine ? lines.findIndex((line) => line === "fine") + 1 : 0;
    const last = place === 0 ? first : events[place - 1].line;
    return lines.slice(0, last).map((line) => `${line}\n`).join("");
  },

  // Which source, trace, limits and split the counts of idle events belong to.
  takeKey() {
    const [form, files] = chosenReplay("");
    const key = JSON.stringify([form, files, this.schedule.fine]);
    if (key !== this.key) {
      this.idle = new IdleCounts();
      this.prefix = "";
      this.key = key;
    }
    // What is known of the events before the first one that was changed still holds.
    const events = this.schedule.events.map(lineOfEvent);
    const before = this.prefix === "" ? [] : this.prefix.split("\n");
    const same = events.findIndex((event, place) => event !== before[place]);
    this.idle.cut(same < 0 ? events.length : same);
    this.prefix = events.join("\n");
  },

  // Replays up to the place, and draws the world there.
  async refresh() {
    this.turn += 1;
    const { turn } = this;
    const isStale = () => turn !== this.turn;
    this.setBusy(true);
    try {
      this.read();
      this.takeKey();
      this.at = Math.min(this.at, this.length);
      const text = this.textUpTo(this.at);
      const answer = await callProgram(...chosenReplay(text));
      if (isStale()) {
        return;
      }
      if (!answer.isDone) {
        this.tellRefusal(answer);
        return;
      }
      await this.follow(answer, isStale);
    } finally {
      if (!isStale()) {
        this.setBusy(false);
      }
    }
  },

  async follow(answer, isStale) {
    const report = readReport(answer.text);
    const count = Math.min(this.at, this.schedule.events.length);
    const isDrained = this.at > count;
    if (!isDrained) {
      this.idle.set(count, report.idle);
    }
    await this.findIdle(count);
    const stages = await this.stages();
    if (isStale()) {
      return;
    }
    this.answer = answer;
    this.world = new World(report, this.schedule.events.slice(0, count), this.idle.flags(count), stages);
    this.isDrained = isDrained;
    this.live = null;
    this.draw();
    if (!isDrained) {
      const live = await this.findLive();
      if (!isStale()) {
        this.live = live;
        this.drawEvents();
      }
    }
    this.drawReport();
  },

  // Finds which of the first events are idle, by replays up to some of them.
  async findIdle(count) {
    let wanted = this.idle.counts[count] === undefined ? [count] : this.idle.open(count, MOST_PLACES);
    while (wanted.length > 0) {
      const texts = wanted.map((place) => this.textUpTo(place).split("\n").length - 1);
      const [form, files] = chosenReplay(papers.text("schedule"));
      const found = await callVariants(form, files, texts.map((keep) => ({ keep, then: "" })));
      found.forEach((told, place) => told && this.idle.set(wanted[place], told.idle));
      if (found.includes(null)) {
        throw new Failed("The program refuses a part of this schedule.");
      }
      wanted = this.idle.open(count, MOST_PLACES);
    }
  },

  // The stages of a pass before the server and after it, where each is an event of its own.
  async stages() {
    if (!this.schedule.fine || wayOfSplit() === "server") {
      return { before: 0, after: 0 };
    }
    if (this.stagesKey !== this.key) {
      const text = await splitText();
      const answer = text && readAnswer(text);
      this.foundStages = answer ? stagesOf(this.schedule, answer) : { before: 0, after: 0 };
      this.stagesKey = this.key;
    }
    return this.foundStages;
  },

  // Which events would find something to do here. The program is asked: how many commands can be sent; for each version
  // that an output waits for whether it may go; and the rest, which the world shows, all at once.
  async findLive() {
    const { world } = this;
    const text = this.textUpTo(this.at);
    const keep = text.split("\n").length - 1;
    const versions = new Map();
    world.held.forEach((number, item) => {
      const { version } = world.packet(number);
      versions.set(version, [...(versions.get(version) || []), item]);
    });
    const held = [...versions.values()].slice(0, MOST_VERSIONS);
    const guessed = this.guess();
    const asked = ["c\n".repeat(MOST_COMMANDS), "w\n", guessed.live.join(""), guessed.idle.join(""),
      ...held.map(([item]) => `h ${item}\n`)];
    const [form, files] = chosenReplay(text);
    const found = await callVariants(form, files, asked.map((then) => ({ keep, then })));
    const idleAt = (place) => found[place].idle - world.report.idle;
    const live = { c: MOST_COMMANDS - idleAt(0), w: idleAt(1) === 0, h: new Set() };
    held.forEach((items, place) => idleAt(place + 4) === 0 && items.forEach((item) => live.h.add(item)));
    const isRight = guessed.isApart && idleAt(2) === 0 && idleAt(3) === guessed.idle.length;
    return { ...live, ...(isRight ? guessed.of : await this.askEach(form, files, keep)) };
  },

  // What the world says of the events that it knows: those that should find something to do, in an order in which none
  // makes room for another one, and those that shouldn't. Where passes have stages there is no such order.
  guess() {
    const { world } = this;
    const of = { d: world.down.length > 0, k: world.known < world.applied, u: world.up.length > 0,
      a: world.next < world.report.total, s: world.passes.length > 0 };
    const lines = Object.keys(of).map((letter) => [letter, `${lineOfEvent({ letter, item: 0 })}\n`]);
    const isApart = world.passes.length === 0 && world.stages.before === 0 && world.stages.after === 0;
    const live = lines.filter(([letter]) => of[letter]).map(([, line]) => line);
    return { of, live, isApart,
      idle: lines.filter(([letter]) => !of[letter]).map(([, line]) => line) };
  },

  async askEach(form, files, keep) {
    const letters = ["d", "k", "u", "a", "s"];
    const found = await callVariants(form, files, letters.map((letter) =>
      ({ keep, then: `${lineOfEvent({ letter, item: 0 })}\n` })));
    return Object.fromEntries(letters.map((letter, place) =>
      [letter, found[place].idle === this.world.report.idle]));
  },

  // Performs an event: what came after the place in the schedule goes.
  async perform(event) {
    this.write(`${this.textUpTo(this.at)}${event}\n`);
    await this.goTo(this.length);
  },

  // Writes the schedule. The program is asked about it by the replay itself.
  write(text) {
    const paper = papers.all.get("schedule");
    paper.editor.text = text;
    paper.version += 1;
    clearTimeout(paper.timer);
    paper.tell("", "");
    this.read();
  },

  async goTo(place) {
    this.at = Math.max(0, Math.min(place, this.length));
    await this.refresh();
  },

  async take(text) {
    this.write(text);
    await this.goTo(this.length);
  },

  async setFine(isFine) {
    const lines = linesOf(papers.text("schedule")).filter((line) => line !== "fine");
    await this.take([...(isFine ? ["fine"] : []), ...lines].map((line) => `${line}\n`).join(""));
  },

  tellRefusal(answer) {
    document.getElementById("world").replaceChildren(make("pre", "refusal", answer.refusal));
    ["events", "notes", "steps-report"].forEach((name) => document.getElementById(name).replaceChildren());
    document.getElementById("place").textContent = "";
  },

  setBusy(isBusy) {
    document.getElementById("panel-steps").dataset.busy = isBusy;
  },

  // Whether an item of a list may take its event here: null where that isn't known yet.
  isLive(letter, item) {
    if (this.isDrained) {
      return false;
    }
    if (!this.live) {
      return null;
    }
    return letter === "h" ? this.live.h.has(item) : letter === "c" ? this.live.c > 0 : this.live[letter];
  },

  draw() {
    drawWorld(this);
    drawNotes(this);
    this.drawEvents();
  },

  drawEvents() {
    drawEvents(this);
    drawCommands(this);
    markItems(this);
  },

  // The run so far, drawn as a report is, and the rows on both sides.
  drawReport() {
    const place = document.getElementById("steps-report");
    const read = readBeside(["source"]);
    const meanings = takeMeaningsOf(read);
    shownTexts = new Map([...read, ["report", this.world.report]]);
    place.replaceChildren(shareLine(this.answer.text), reportTools(this.answer.text),
      drawnOrTold(() => drawState(this.world.report, "report", meanings)));
  },

  start() {
    const on = (name, act) => document.getElementById(name).addEventListener("click", () =>
      attemptSteps(act));
    on("steps-first", () => this.goTo(0));
    on("steps-back", () => this.goTo(this.at - 1));
    on("steps-next", () => this.goTo(this.at + 1));
    on("steps-last", () => this.goTo(this.length));
    on("steps-drain", () => this.perform("drain"));
    on("steps-clear", () => this.take(this.schedule && this.schedule.fine ? "fine\n" : ""));
    on("steps-naive", () => this.take(naiveSchedule(readTrace(papers.text("trace")).packets.length)));
    on("steps-random", () => this.takeRandom());
    document.getElementById("fine").addEventListener("change", ({ target }) =>
      attemptSteps(() => this.setFine(target.checked)));
    document.getElementById("way").addEventListener("change", () =>
      panels.shown === "steps" && attemptSteps(() => this.refresh()));
    panels.openers.steps = () => attemptSteps(() => this.refresh());
    papers.listeners.push(({ kind }) => panels.shown === "steps" && kind in ROLES && kind !== "report"
      && attemptSteps(() => this.refresh()));
  },

  async takeRandom() {
    const count = Math.max(1, Math.min(MOST_STEPS_BY_HAND, Math.floor(Number(inputOf("random-count"))) || 1));
    const kind = inputOf("random-kind");
    const text = randomSchedule(Number(inputOf("random-seed")) || 0, count, kind);
    if (kind === "links") {
      papers.all.get("schedule").give(text);
      papers.show(papers.all.get("schedule"));
      await lossy();
    } else {
      await this.take(text);
    }
  },
};

// Does what a button asks, and shows a failure in the place of the world.
async function attemptSteps(act) {
  try {
    await act();
  } catch (fault) {
    const place = fault instanceof Refusal ? `The schedule, line ${fault.line}: ` : "";
    document.getElementById("world").replaceChildren(make("pre", "refusal", `${place}${fault.message}`));
    document.getElementById("notes").replaceChildren();
    steps.setBusy(false);
  }
}
