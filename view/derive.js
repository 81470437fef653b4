"use strict";

// What a report makes certain of a run when its schedule stands beside it, and, where each stage of a pass is an event
// of its own, the split, which says how many stages passes take. What none of them says is how many changes each
// version has, and how many of those that wait find room in a batch that begins to be sent. So every number that is
// possible is tried; of the runs of the schedule that come of it, those are kept that do just what the report says.
// What is the same in all of them is certain.

// How many runs are followed at once, and how many steps are taken in all; where there are several runs, each step
// costs more. Of more runs than a few, those that differ only in how many events were idle are taken together, so that
// less may be shown as certain than is.
const FEW_RUNS = 40;
const MOST_RUNS = 600;
const MOST_STEPS = 3000000;
const COST_OF_SEVERAL = 8;

const EVENT_LETTERS = "aucwkhds";

// How many stages a pass before the server and one after it have left as they enter: the highest stage of each, by the
// answer of compile, where each stage is an event of its own, and else none. Null where no answer says it.
function stagesOf(schedule, answer) {
  if (!schedule.fine) {
    return { before: 0, after: 0 };
  }
  const highest = (name) =>
    answer.instructions.reduce((most, instruction) => Math.max(most, instruction[name] || 0), 0);
  return answer ? { before: highest("before"), after: highest("after") } : null;
}

// The greatest number of changes that one run of a packet can make to what the switch keeps, by the answer of compile;
// or null where that can't be the split of the report.
function mostChangesOf(answer, report) {
  const kept = new Set(report.tables.map(({ name }) => name));
  const tables = tablesOf(answer).filter(({ looks }) => looks.some(({ before }) => before !== null));
  const isOther = [...kept].some((name) => !tables.some((table) => table.name === name))
    || tables.some(({ name, writes }) => writes.length > 0 && !kept.has(name));
  if (isOther) {
    return null;
  }
  const most = answer.blocks.map(() => 0);
  answer.instructions.filter((instruction) => isWrite(instruction) && kept.has(instruction.object))
    .forEach(({ block }) => { most[block] += 1; });
  // Blocks of one block that ask the same value, one for 0 and one for 1, are never live together.
  const inside = answer.blocks.map(() => new Map());
  for (let number = answer.blocks.length - 1; number >= 0; number -= 1) {
    const { parent, condition, polarity } = answer.blocks[number];
    inside[number].forEach((each) => { most[number] += Math.max(...each); });
    if (parent !== null) {
      const name = valueName(condition);
      const each = inside[parent].get(name) || [0, 0];
      each[polarity] += most[number];
      inside[parent].set(name, each);
    }
  }
  return most[0] > 0 || report.version === 0 ? most[0] : null;
}

// The greatest number of changes that one run of a packet can make to one object that the switch keeps, to how many
// objects it can make changes at all, and how many rows can be staged for each; or null where no limits say that.
function roomOf(answer, limits) {
  const staged = limits ? limits.limits.get("writeback") : null;
  if (typeof staged !== "number") {
    return null;
  }
  const written = tablesOf(answer).filter(({ looks, writes }) =>
    writes.length > 0 && looks.some(({ before }) => before !== null));
  return { staged, objects: written.length, ofObject: Math.max(0, ...written.map(({ writes }) => writes.length)) };
}

// How many commands there are for so many changes, and how many of them make lookups see the changes.
const lengthOf = (changes) => 3 * changes + 2;
const onOf = (changes) => changes + 1;

// The number of commands before those of a batch.
const startOf = ({ end, changes }) => end - lengthOf(changes);

// What the command of this number, counted from 1, is in its batch; or null where there is none.
function commandAt({ pending }, number) {
  const batch = pending.find(({ end }) => end >= number);
  if (!batch) {
    return null;
  }
  const { changes } = batch;
  const place = number - startOf(batch);
  return place <= changes ? "stage" : place === onOf(changes) ? "on" : place < 2 * onOf(changes) ? "main"
    : place === 2 * onOf(changes) ? "off" : "clear";
}

// The bit that commands have set: whether lookups see what is staged over the main tables.
const bitOf = (run) => run.applied > 0 && ["on", "main"].includes(commandAt(run, run.applied));

// What the next command would change under a pass that is under way, for which it waits: the main tables, where one
// entered with the bit clear, or what is staged, where one entered with the bit set. Null where it needn't wait.
function waitOfCommand(run) {
  const command = run.passes.length > 0 ? commandAt(run, run.applied + 1) : null;
  return run.passes.some(({ bit }) => command === (bit ? "stage" : "main")) ? command : null;
}

// A run beside this one, which goes on by itself.
function branchOf(run, changed) {
  return {
    ...run, passes: [...run.passes], up: [...run.up], held: [...run.held], down: [...run.down],
    links: run.links && run.links.map((link) => link.copy()), ...changed,
  };
}

class Derivation {
  // `stages` is what stagesOf says of passes; `most` is the greatest number of changes that a run can make, or null
  // where no split says it; `room` is what roomOf says of batches.
  constructor(report, schedule, stages, most, room) {
    this.report = report;
    this.schedule = schedule;
    this.stages = stages;
    this.room = room;
    this.told = toldEvents(report);
    // The changes of each version, and the events at which it was shown and acknowledged; for each packet the event at
    // which it was let go, and where passes take stages, those at which it went up and its second pass began.
    this.ranges = {
      changes: new Map(), shown: new Map(), known: new Map(), letGo: new Map(), wentUp: new Map(), cameDown: new Map(),
    };
    // For each event the stage that a pass took, what a `w` that was idle waited for, or the line of the schedule that
    // the event is; null where it isn't certain.
    this.facts = { stage: new Map(), wait: new Map(), line: new Map() };
    // Why nothing could be derived: a text, or null.
    this.failure = null;
    if (report.events > MOST_STEPS) {
      this.failure = "there are more events than this page follows";
      return;
    }
    // For each event: bit 0 where it was idle in some run, bit 1 where it wasn't in some.
    this.idleness = new Uint8Array(report.events + 1);
    // For each event of drain: a bit for each letter that it has in some run.
    this.letters = new Uint8Array(report.events + 1);
    this.most = this.boundsOf(most);
    this.admitted = 0;
    this.version = 0;
    this.runs = [this.firstRun()];
    this.follow();
  }

  firstRun() {
    return {
      passes: [], up: [], held: [], down: [], pending: [], total: 0, sent: 0, applied: 0, acknowledged: 0, visible: 0,
      known: 0, leastIdle: 0, mostIdle: 0, done: null, history: null, links: null,
    };
  }

  // What the run performs as its next event, or null where nothing is left.
  nextOf(run, event) {
    return this.schedule.events[event - 1] || this.turnOf(run);
  }

  // How many events with the letter there are up to each event, at most: of three events of drain one is a `c`, and of
  // two one is a `w`.
  countsOf(letter, share) {
    const { events } = this.schedule;
    const counts = [0];
    events.forEach((event) => counts.push(counts[counts.length - 1] + (event.letter === letter ? 1 : 0)));
    return (event) => counts[Math.min(event, events.length)] + Math.ceil(Math.max(0, event - events.length) / share);
  }

  // For each version, how many changes it can have at most. Where the switch showed the version, a command for each of
  // its changes, one at least for each earlier version, and the one that shows them were applied before. Where not all
  // commands are sent in the end, more changes than commands that were sent after the version can't be told from just
  // as many: such versions stand in `orMore`. What drain makes is acknowledged before the report has another event,
  // so it goes in a batch of its own.
  boundsOf(most) {
    const { report, schedule } = this;
    const { made, shown } = versionsOf(report);
    const [sent, applied] = [this.countsOf("c", 3), this.countsOf("w", 2)];
    const isSent = schedule.drain || report.drained;
    const events = [...this.told.keys()].sort((one, other) => one - other);
    const following = new Map(events.map((event, place) => [event, events[place + 1] || report.events + 1]));
    this.orMore = new Set();
    return made.map((event, version) => {
      const isDrain = event > schedule.events.length;
      const behind = isDrain ? Math.floor((following.get(event) - 1 - event) / 3)
        : sent(report.events) - sent(event || 0);
      const all = isSent ? Math.floor((isDrain ? behind - 2 : behind) / 3) : behind;
      const seen = shown[version] === null ? Infinity : applied(shown[version]) - version;
      const told = Math.min(seen, most === null ? Infinity : most);
      if (!isSent && all < told) {
        this.orMore.add(version);
      }
      return Math.max(1, Math.min(all, told));
    });
  }

  // Goes through all events with all runs that the report leaves open.
  follow() {
    const { report } = this;
    let steps = 0;
    for (let event = 1; event <= report.events; event += 1) {
      const isOne = this.runs.length === 1;
      const told = this.told.get(event);
      const next = [];
      for (const run of this.runs) {
        const given = this.nextOf(run, event, isOne);
        if (given && this.perform(run, given, event, told, isOne)) {
          next.push(...(given.letter === "c" ? this.takingsOf(run) : this.branchesOf(run, told)));
        }
      }
      this.takeTold(told);
      steps += next.length === 1 ? 1 : COST_OF_SEVERAL * next.length;
      this.runs = next.length > 1 ? this.merged(next, true) : next;
      if (this.runs.length > FEW_RUNS) {
        this.runs = this.merged(this.runs, false);
      }
      if (this.runs.length > MOST_RUNS || steps > MOST_STEPS) {
        this.failure = "the report and the schedule leave more runs open than this page follows";
        return;
      }
      if (this.runs.length === 0) {
        this.failure = `no run of the schedule does what the report says up to event ${grouped(event)}`;
        this.isOther = true;
        return;
      }
      this.settle();
    }
    this.runs = this.runs.filter((run) => this.isEnd(run));
    if (this.runs.length === 0) {
      this.failure = "no run of the schedule ends as the report says";
      this.isOther = true;
      return;
    }
    this.runs.forEach((run) => this.takeHistory(run));
  }

  // What drain performs next: the first event that applies, or null. After `s 0` no pass is under way, so no command
  // waits for one.
  turnOf({ passes, up, held, down, total, sent, applied, acknowledged, known }) {
    if (passes.length > 0) {
      return { letter: "s", item: 0 };
    }
    if (acknowledged < applied) {
      return { letter: "k", item: 0 };
    }
    if (applied < sent) {
      return { letter: "w", item: 0 };
    }
    if (sent < total) {
      return { letter: "c", item: 0 };
    }
    if (down.length > 0) {
      return { letter: "d", item: 0 };
    }
    if (held.length > 0 && held[0].version <= known) {
      return { letter: "h", item: 0 };
    }
    if (up.length > 0) {
      return { letter: "u", item: 0 };
    }
    return this.admitted < this.report.total ? { letter: "a", item: 0 } : null;
  }

  // Performs the event in the run. Returns whether the run does what the report says of the event.
  perform(run, { letter, item }, event, told, isOne) {
    if (event > this.schedule.events.length) {
      this.note(run, isOne, "letter", event, EVENT_LETTERS.indexOf(letter));
    }
    run.done = null;
    const applies = this.apply(run, letter, item, event, isOne);
    run.leastIdle += applies ? 0 : 1;
    run.mostIdle += applies ? 0 : 1;
    this.note(run, isOne, "idle", event, applies ? 1 : 0);
    if (run.leastIdle > this.report.idle || (told !== undefined) !== (run.done !== null)) {
      return false;
    }
    if (told === undefined) {
      return true;
    }
    const { what, packet } = told;
    return what === run.done.what && packet === run.done.packet
      && (what !== "admitted" || packet.way !== "fast" || packet.version === run.visible)
      && (what !== "decided" || packet.version === this.version || packet.version === this.version + 1);
  }

  // Performs the event where it applies. Returns whether it does; what the report then has to say of it is `run.done`.
  apply(run, letter, item, event, isOne) {
    if (letter === "a") {
      return this.admit(run, event, isOne);
    }
    if (letter === "s") {
      return this.takeStage(run, item, event, isOne);
    }
    if (letter === "u") {
      const [packet] = run.up.splice(item, 1);
      run.done = packet ? { what: "decided", packet } : null;
      return packet !== undefined;
    }
    if (letter === "d") {
      const [packet] = run.down.splice(item, 1);
      if (packet && this.stages.after > 0) {
        this.note(run, isOne, "cameDown", packet.number, event);
      }
      if (packet) {
        this.enter(run, { packet, isFirst: false, left: this.stages.after }, event, isOne);
      }
      return packet !== undefined;
    }
    if (letter === "h") {
      const isFree = item < run.held.length && run.held[item].version <= run.known;
      if (isFree) {
        const [packet] = run.held.splice(item, 1);
        this.sendDown(run, packet);
        this.note(run, isOne, "letGo", packet.number, event);
      }
      return isFree;
    }
    if (letter === "c") {
      const applies = run.sent < run.total;
      run.sent += applies ? 1 : 0;
      return applies;
    }
    return this.command(run, letter, event, isOne);
  }

  admit(run, event, isOne) {
    if (this.admitted === this.report.total) {
      return false;
    }
    const packet = this.report.packets[this.admitted];
    run.done = { what: "admitted", packet };
    if (packet) {
      this.enter(run, { packet, isFirst: true, left: this.stages.before }, event, isOne);
    }
    return true;
  }

  // A pass enters, with the bit of this moment. One that has no stage left ends at once.
  enter(run, pass, event, isOne) {
    if (pass.left > 0) {
      run.passes.push({ ...pass, bit: bitOf(run) });
    } else {
      this.endPass(run, pass, event, isOne);
    }
  }

  takeStage(run, item, event, isOne) {
    const pass = run.passes[item];
    if (!pass) {
      return false;
    }
    const { packet, isFirst, left } = pass;
    this.note(run, isOne, "stage", event, `${packet.number} ${isFirst ? "first" : "second"} ${left}`);
    if (left > 1) {
      run.passes[item] = { ...pass, left: left - 1 };
    } else {
      run.passes.splice(item, 1);
      this.endPass(run, pass, event, isOne);
    }
    return true;
  }

  // A pass ends. Before the server a fast packet is released by it, any other goes up, and the report may not have it
  // under way still; after the server the packet is released.
  endPass(run, { packet, isFirst }, event, isOne) {
    if (!isFirst || (packet.way === "fast" && this.stages.before > 0)) {
      run.done = { what: "released", packet };
    } else if (packet.way === "pass") {
      run.done = { what: "ended", packet };
    } else if (packet.way !== "fast") {
      this.sendUp(run, packet);
      if (this.stages.before > 0) {
        this.note(run, isOne, "wentUp", packet.number, event);
      }
    }
  }

  // A packet goes up to the server, or down from it.
  sendUp(run, packet) {
    run.up.push(packet);
  }

  sendDown(run, packet) {
    run.down.push(packet);
  }

  command(run, letter, event, isOne) {
    const [name, bound, version, fact] = letter === "w" ? ["applied", "sent", "visible", "shown"]
      : ["acknowledged", "applied", "known", "known"];
    const isThere = run[name] < run[bound];
    const wait = isThere && letter === "w" ? waitOfCommand(run) : null;
    if (letter === "w" && this.schedule.fine && (!isThere || wait)) {
      this.note(run, isOne, "wait", event, wait || "none");
    }
    if (!isThere || wait) {
      return false;
    }
    run[name] += 1;
    const batch = run.pending.find(({ on }) => on >= run[name]);
    if (batch && run[name] === batch.on) {
      while (run[version] < batch.version) {
        run[version] += 1;
        this.note(run, isOne, fact, run[version], event);
      }
    }
    if (letter === "k" && run.acknowledged === run.pending[0].end) {
      run.pending.shift();
    }
    return true;
  }

  // Where the server made a version, a run for each number of changes that its batch can have.
  branchesOf(run, told) {
    if (!told || told.what !== "decided") {
      return [run];
    }
    run.held.push(told.packet);
    const { version } = told.packet;
    if (version === this.version) {
      return [run];
    }
    const runs = [];
    for (let changes = 1; changes <= this.most[version]; changes += 1) {
      const batch = {
        version, versions: 1, changes, on: run.total + onOf(changes), end: run.total + lengthOf(changes),
      };
      const branch = branchOf(run, { pending: [...run.pending, batch], total: batch.end });
      this.note(branch, this.most[version] === 1 && this.runs.length === 1, "changes", version, changes);
      runs.push(branch);
    }
    return runs;
  }

  // Whether so many changes of so many versions find room in one batch: true, false, or null where that isn't certain.
  findRoom(changes, versions) {
    if (this.room === null) {
      return null;
    }
    const { staged, objects, ofObject } = this.room;
    return versions * ofObject <= staged ? true : changes > objects * staged ? false : null;
  }

  // Where the command that was sent is the first of its batch, a run for each number of batches that this one can have
  // taken up before. It takes up those after it, one by one, until one doesn't find room.
  takingsOf(run) {
    const place = run.pending.findIndex((batch) => startOf(batch) === run.sent - 1);
    const runs = [];
    if (place < 0) {
      return [run];
    }
    const before = run.pending.slice(0, place);
    let [batch, ...behind] = run.pending.slice(place);
    let total = run.total;
    for (;;) {
      const [next] = behind;
      const finds = next && this.findRoom(batch.changes + next.changes, batch.versions + next.versions);
      if (!next || finds !== true) {
        runs.push(branchOf(run, { pending: [...before, batch, ...behind], total }));
      }
      if (!next || finds === false) {
        return runs;
      }
      const changes = batch.changes + next.changes;
      const start = startOf(batch);
      batch = {
        version: next.version, versions: batch.versions + next.versions, changes, on: start + onOf(changes),
        end: start + lengthOf(changes),
      };
      behind = behind.slice(1).map((other) => ({ ...other, on: other.on - 2, end: other.end - 2 }));
      total -= 2;
    }
  }

  // What the report says is the same in all runs.
  takeTold(told) {
    if (told && told.what === "admitted") {
      this.admitted += 1;
    } else if (told && told.what === "decided") {
      this.version = told.packet.version;
    }
  }

  // Of runs that will go on alike one is kept, with the histories of all.
  merged(runs, isIdleTold) {
    const kept = new Map();
    for (const run of runs) {
      const from = run.acknowledged;
      const key = [
        run.sent - from, run.applied - from, run.total - from, run.visible, run.known,
        ...(isIdleTold ? [run.leastIdle, run.mostIdle] : []),
        ...run.pending.map(({ versions, on, end }) => `${versions} ${on - from} ${end - from}`), "down",
        ...run.down.map(({ number }) => number),
        ...(this.schedule.fine ? this.passKey(run) : []),
      ].join(",");
      const other = kept.get(key);
      if (other) {
        other.history = { before: [other.history, run.history] };
        other.leastIdle = Math.min(other.leastIdle, run.leastIdle);
        other.mostIdle = Math.max(other.mostIdle, run.mostIdle);
      } else {
        kept.set(key, run);
      }
    }
    return [...kept.values()];
  }

  // Where passes take stages, they and the order of packets that went up can differ too.
  passKey({ passes, up }) {
    return ["passes", ...passes.map(({ packet, isFirst, left, bit }) => `${packet.number} ${isFirst} ${left} ${bit}`),
      "up", ...up.map(({ number }) => number)];
  }

  // Where one run is left, all that it did is settled.
  settle() {
    if (this.runs.length === 1 && this.runs[0].history !== null) {
      this.takeHistory(this.runs[0]);
    }
  }

  takeHistory(run) {
    const seen = new Set();
    const open = [run.history];
    run.history = null;
    while (open.length > 0) {
      const node = open.pop();
      if (node !== null && !seen.has(node)) {
        seen.add(node);
        open.push(...node.before);
        if (node.name) {
          this.take(node.name, node.key, node.value);
        }
      }
    }
  }

  note(run, isOne, name, key, value) {
    if (isOne) {
      this.take(name, key, value);
    } else {
      run.history = { name, key, value, before: [run.history] };
    }
  }

  take(name, key, value) {
    if (name === "letter") {
      this.letters[key] |= 1 << value;
    } else if (name === "idle") {
      this.idleness[key] |= 1 << value;
    } else if (this.facts[name]) {
      const fact = this.facts[name].get(key);
      this.facts[name].set(key, fact === undefined || fact === value ? value : null);
    } else {
      const range = this.ranges[name].get(key);
      this.ranges[name].set(key, {
        least: range ? Math.min(range.least, value) : value, most: range ? Math.max(range.most, value) : value,
      });
    }
  }

  isEnd(run) {
    const { report, schedule } = this;
    const isDrained = this.isDrained(run);
    return run.leastIdle <= report.idle && run.mostIdle >= report.idle
      && run.visible === report.visible && this.version === report.version
      && run.passes.every(({ packet, isFirst }) => !isFirst || packet.way === "pass")
      && isDrained === report.drained && (isDrained || !schedule.drain);
  }

  isDrained(run) {
    return this.turnOf(run) === null && run.held.length === 0;
  }

  // The letter of an event of drain, or null where it isn't certain.
  letterOf(event) {
    const bits = this.letters[event];
    return bits > 0 && (bits & (bits - 1)) === 0 ? EVENT_LETTERS[Math.log2(bits)] : null;
  }

  // What is certain of the event: "done", "idle", or "perhaps" where it was idle in some runs.
  stateOf(event) {
    return ["done", "idle", "done", "perhaps"][this.idleness[event]];
  }

  // Where the output of a packet without a release is: "held", "down", "second" where its second pass is under way, or
  // null where that isn't certain.
  placeOf(number) {
    this.places = this.places || this.runs.map(({ held, down, passes }) => new Map([
      ...held.map((packet) => [packet.number, "held"]), ...down.map((packet) => [packet.number, "down"]),
      ...passes.map(({ packet }) => [packet.number, "second"]),
    ]));
    const [place, ...others] = new Set(this.places.map((places) => places.get(number)));
    return others.length === 0 ? place : null;
  }

  // The packet whose pass took a stage at the event, whether it was its first pass, which stage it was and of how many;
  // or null where the event took none, or that isn't certain.
  stageAt(event) {
    const fact = this.stateOf(event) === "done" ? this.facts.stage.get(event) : null;
    if (!fact) {
      return null;
    }
    const [number, pass, left] = fact.split(" ");
    const stages = pass === "first" ? this.stages.before : this.stages.after;
    return { number: Number(number), pass, stage: stages - Number(left) + 1, stages };
  }

  // What an idle `w` waited for, as waitOfCommand says it; or null where it didn't wait, or that isn't certain.
  waitAt(event) {
    const fact = this.stateOf(event) === "idle" ? this.facts.wait.get(event) : null;
    return fact && fact !== "none" ? fact : null;
  }

  // Whether the version is acknowledged in all runs at the end.
  isKnown(version) {
    return this.runs.every(({ known }) => known >= version);
  }

  // How much of what is drawn isn't certain.
  get openCount() {
    const ranges = Object.values(this.ranges).flatMap((range) => [...range.values()]);
    return ranges.filter(({ least, most }) => least < most).length;
  }
}
