"use strict";

// Draws the report of a replay: the way of each packet by event number, versions, the serial order, and the rows.

// So much room a number of an event takes at least.
const TICK_WIDTH = 45;

// A number that is between two, with a word before each.
function rangeOf({ least, most }, word) {
  return least === most ? `${word}${grouped(least)}` : `${word}${grouped(least)} to ${grouped(most)}`;
}

// How many stages passes take, in words.
const stagesText = ({ before, after }) => `${counted(before, "stage")} before the server and ${after} after it`;

// A part of a whole in percent, with one digit after the point.
const percentOf = (part, whole) => `${(100 * part / whole).toFixed(1)}%`;

class RunDrawing {
  // Beside the report stand the texts that are there: schedule, trace and answer, and what numbers mean.
  constructor(report, { schedule, trace, answer, limits, meanings }) {
    this.report = report;
    this.trace = trace;
    this.meanings = meanings;
    // What speaks against the texts belonging together, as strangersOf says it.
    this.strangers = [];
    // Of a replay over links its schedule, and the drawing of its datagrams where that is certain.
    this.linkSchedule = null;
    this.datagrams = null;
    // Whether each stage of a pass was an event of its own, as far as the texts say.
    this.isFine = schedule ? schedule.fine : isFine(report);
    this.told = toldEvents(report);
    this.derive(schedule, answer, limits);
    this.versions = versionsOf(report);
    if (this.derived) {
      this.takeDerived();
    }
    this.last = report.events + 0.5;
    this.places = new Map(report.order.map((number, place) => [number, place]));
    this.rows = [];
    this.seats = [];
    this.paths = [];
    this.pictures = [];
  }

  // Goes through the schedule, where there is one, as far as it is that of the report.
  derive(schedule, answer, limits) {
    const { report } = this;
    this.schedule = schedule;
    this.most = schedule && answer ? mostChangesOf(answer, report) : null;
    const room = this.most === null ? null : roomOf(answer, limits);
    this.derived = null;
    this.failure = null;
    if (schedule && report.links.length > 0) {
      this.deriveOverLinks(schedule, room);
      return;
    }
    const stages = schedule ? stagesOf(schedule, answer) : null;
    this.failure = schedule && !stages ? "each stage of a pass is an event of its own, and how many stages passes take "
      + "is said by the split alone, so give what compile prints too" : null;
    if (schedule && !this.failure) {
      this.takeDerivation(new Derivation(report, schedule, stages, this.most, room));
    }
  }

  // The schedule of a replay over links says which events came through. Where that isn't certain, it is ignored.
  deriveOverLinks(schedule, room) {
    this.linkSchedule = schedule;
    this.schedule = undefined;
    this.takeDerivation(new LinkDerivation(this.report, schedule, this.most, room));
    const performed = this.derived && this.derived.performed;
    if (this.derived && !performed) {
      this.derived = null;
      this.failure = "it isn't certain which of its lines came through";
    } else if (performed) {
      this.schedule = { ...schedule, events: performed.map((place) => schedule.events[place]) };
      this.datagrams = new DatagramDrawing(this, datagramsOf(this.report, schedule, performed), performed);
    }
  }

  takeDerivation(derivation) {
    if (derivation.isOther) {
      this.tellOther(derivation);
    } else if (derivation.failure) {
      this.failure = derivation.failure;
    } else {
      this.derived = derivation;
    }
  }

  // No run does what the report says. Where without the changes of the split one does, it is another split; else
  // another schedule, or, where each stage is an event, another split or schedule.
  tellOther({ failure, stages, schedule }) {
    const { report } = this;
    const again = () => (this.linkSchedule ? new LinkDerivation(report, schedule, null, null)
      : new Derivation(report, schedule, stages, null, null));
    const isSplit = this.most !== null && !again().isOther;
    this.strangers.push(isSplit
      ? { kinds: ["answer", "report"], why: `with the changes that this split can make, ${failure}` }
      : schedule.fine
        ? { kinds: ["answer", "schedule", "report"], why: `with ${stagesText(stages)}, ${failure}` }
        : { kinds: ["schedule", "report"], why: failure });
  }

  // When each version was shown, by the schedule's events.
  takeDerived() {
    const { notYet, shown } = this.versions;
    for (let version = 1; version < shown.length; version += 1) {
      const range = this.derived.ranges.shown.get(version);
      notYet[version] = range ? range.least - 1 : this.report.events;
      shown[version] = range ? range.most : null;
    }
  }

  // What certain events of commands and of `h` do, by event.
  get effects() {
    if (!this.foundEffects) {
      this.foundEffects = { moved: new Map(), notes: new Map() };
      const words = { shown: " From now on lookups see version ", known: " This acknowledges version " };
      const { ranges } = this.derived;
      [ranges.letGo, ranges.cameDown].forEach((range) => range.forEach(({ least, most }, number) =>
        least === most && this.foundEffects.moved.set(least, number)));
      Object.entries(words).forEach(([name, word]) => ranges[name].forEach(({ least, most }, version) =>
        least === most && this.foundEffects.notes.set(least, `${word}${version}.`)));
    }
    return this.foundEffects;
  }

  // The packet that is let go, or begins its second pass, or whose pass takes a stage at the event; or undefined.
  movedAt(event) {
    const stage = this.derived && this.derived.stageAt(event);
    return stage ? stage.number : this.derived ? this.effects.moved.get(event) : undefined;
  }

  // Which stage of which pass the event is, or what a command waits for that isn't applied at it.
  stageNote(event) {
    const stage = this.derived && this.derived.stageAt(event);
    const wait = this.derived && this.derived.waitAt(event);
    if (wait) {
      const [does, bit] = wait === "main" ? ["changes a main table", "clear"] : ["stages a change", "set"];
      return ` The next command ${does}, so it waits for a pass that entered with the bit ${bit}.`;
    }
    return !stage ? "" : ` It was stage ${stage.stage} of ${stage.stages} of its ${stage.pass} pass${
      stage.stage === stage.stages ? ", which ended" : ""}.`;
  }

  versionNote(event) {
    const maker = this.told.get(event);
    const isMade = maker && maker.what === "decided" && this.versions.makers[maker.packet.version] === maker.packet;
    const made = isMade ? ` It made version ${maker.packet.version}.` : "";
    return made + ((this.derived && this.effects.notes.get(event)) || "");
  }

  draw() {
    this.timeline = make("div", "timeline");
    this.strips = make("div", "strips");
    this.axis = drawBand(make("span", "label", "event"), [], "", 0);
    this.axis.classList.add("axis");
    this.strips.append(this.axis);
    if (this.schedule && this.report.events > 0) {
      this.strips.append(drawScheduleStrip(this));
    }
    if (this.versions.made.length > 1) {
      this.strips.append(drawVersionStrip(this));
    }
    this.legend = make("ul", "legend");
    this.shapes = new Set();
    const rows = make("div", "rows");
    const order = this.drawOrder();
    this.chunks = this.makeChunks();
    rows.append(...this.chunks.elements);
    this.timeline.append(makeWith("div", "ways", [this.strips, rows]), order);
    const section = makeWith("section", "run", [
      make("h2", "", "What became of the packets"), ...this.drawFacts(), this.legend,
      makeProse("p", "source", this.sourceOfDrawing()), this.drawWindow(), this.hint, this.timeline,
      ...(this.datagrams ? [this.datagrams.draw()] : []), ...drawVersions(this), drawPackets(this),
      drawState(this.report, "report", this.meanings),
    ]);
    this.show(0.5, this.last);
    this.chunks.watch();
    new ResizeObserver(() => {
      this.drawTicks();
      this.tellHiddenEvents();
    }).observe(this.timeline);
    this.timeline.addEventListener("focusin", ({ target }) => this.fillAroundMark(target));
    letKeysMove(this.timeline, ".row, .seats", null);
    return section;
  }

  // The rows of the packets, and beside them the seats of the serial order with the lines that lead to them.
  makeChunks() {
    const { packets, order } = this.report;
    const drawRows = (from, until) => packets.slice(from, until).map((packet) => this.drawWay(packet));
    const drawSeats = (from, until) => {
      const place = from / CHUNK;
      if (this.seatChunks[place]) {
        this.seatChunks[place].style.height = "";
        const seats = order.slice(from, until).map((number, at) => this.drawSeat(number, from + at));
        this.seatChunks[place].append(...seats);
      }
      this.drawPaths(from, until);
      this.addToLegend(this.rows[from].parentElement);
    };
    return new Chunks(packets.length, drawRows, drawSeats);
  }

  // The neighbours of a mark that is gone to by keys are made, so that the keys find them.
  fillAroundMark(target) {
    const [row, seat] = [target.closest(".row"), target.closest(".seat")];
    if (row || seat) {
      const number = row ? this.rows.indexOf(row) : this.places.get(this.seats.indexOf(seat));
      this.chunks.fillAround(number);
    }
  }

  drawFacts() {
    const { report } = this;
    const fast = report.packets.filter(({ way }) => way === "fast").length;
    const slow = report.packets.filter(({ way, released }) => way === "slow" && released);
    const longest = (length) => {
      const most = slow.reduce((one, other) => (one && length(one) >= length(other) ? one : other), null);
      return most ? `at most ${counted(length(most), "event")} (packet ${most.number})` : "none";
    };
    const waits = slow.map((packet) => ({ packet, range: this.waitOf(packet) })).filter(({ range }) => range);
    const most = waits.reduce((one, other) => (one && one.range.most >= other.range.most ? one : other), null);
    const versionWait = !most || most.range.most === 0 ? "none"
      : `at most ${counted(most.range.most, "event")} (packet ${most.packet.number}, version ${most.packet.version})`;
    // Of a packet whose first pass is under way it isn't known yet.
    const known = report.packets.filter(({ way }) => way !== "pass").length;
    const facts = [
      ["packets", `${grouped(report.admitted)} of ${grouped(report.total)} admitted`],
      ["never visited the server", known === 0 ? "none" : `${grouped(fast)} of ${grouped(known)}, ${
        percentOf(fast, known)} of the packets are fast`],
      ["decided by the server", grouped(report.decided - fast)],
      ["released", `${grouped(report.released)}, ${grouped(report.admitted - report.released)} on their way`],
      ...(this.isFine && this.derived ? [["passes take", stagesText(this.derived.stages)]] : []),
      [this.isFine && !this.derived ? "first pass, and wait for the server" : "waited for the server",
        longest((packet) => packet.decided - this.upOf(packet).least)],
      ["then for release", longest(({ decided, released }) => released - decided)],
      ...(this.derived && report.version > 0 ? [["of that, for its version", versionWait]] : []),
      ["events", `${grouped(report.events)}, ${grouped(report.idle)} idle`],
      ["version", `${grouped(report.version)}, the switch shows ${grouped(report.visible)}`],
      ["drained", report.drained ? "yes" : "no"],
      ...report.links.map(({ name, items, sent, delivered, known }) => [`link ${name}`,
        `${counted(items, "item")}, ${counted(sent, "datagram")} sent, ${grouped(delivered)} delivered, ${
          grouped(known)} known to be delivered`]),
    ];
    const pairs = facts.map(([name, value]) => makeWith("div", "", [make("dt", "", name), make("dd", "", value)]));
    return [makeWith("dl", "facts", pairs)];
  }

  // The event with which a packet went up to the server: { least, most }.
  upOf({ number, admitted }) {
    const up = this.derived ? this.derived.ranges.wentUp.get(number) : undefined;
    return up || { least: admitted, most: admitted };
  }

  // How many events an output waited until its version was acknowledged, where that is derived: { least, most }.
  waitOf({ decided, version }) {
    if (!this.derived) {
      return null;
    }
    const known = version === 0 ? { least: 0, most: 0 } : this.derived.ranges.known.get(version);
    return known && { least: Math.max(0, known.least - decided), most: Math.max(0, known.most - decided) };
  }

  changesNote(bound) {
    return this.report.version === 0 ? "Nothing is left open by that."
      : `No text says how many changes a version has (${bound}), so each number was tried, and those are kept that`
        + " agree with the report.";
  }

  // What of the drawing stands in the report, and what is derived and how.
  sourceOfDrawing() {
    const told = "The report says when packets were admitted, decided and released, and on which versions; so also when"
      + " the server made each version.";
    if (this.failure) {
      const help = this.most === null && !this.isFine ? " With the split beside them more may be certain." : "";
      return `${told} The schedule is ignored here: ${this.failure}. So it isn't shown when outputs were let go and`
        + ` versions were shown.${help}`;
    }
    if (!this.schedule) {
      const links = this.report.links.length > 0 ? " The run went over links: the events are those that came through,"
        + " and with the schedule beside it the page shows what became of each datagram." : "";
      return `${told} It doesn't say when an output was let go, nor when the switch showed a version: that is only`
        + ` bounded by what packets saw and when they left. With the schedule beside it more can be derived.${links}`;
    }
    const drains = this.report.events - this.schedule.events.length;
    const rule = drains > 0 ? `, and the ${counted(drains, "event")} of drain, each the first of ${
      this.isFine ? "s 0, " : ""}k, w, c, d 0, h 0, u 0 and a that applies` : "";
    const fine = this.isFine ? ` Each stage above 0 is an event of its own, and by the split passes take ${
      stagesText(this.derived.stages)}.` : "";
    const passes = this.isFine ? "which pass took a stage, " : "";
    const open = this.derived.openCount;
    const bound = this.most !== null ? `at most ${this.most}, by the split` : "without the split beside it, any number";
    const lines = this.linkSchedule ? "which of its lines came through over the links, what became of each datagram, "
      : "which events were idle, ";
    return `${told}${fine} Derived from the schedule: ${lines}${passes}when commands showed and acknowledged versions, `
      + `when outputs were let go${rule}. ${this.changesNote(bound)}${open === 0 ? ""
        : ` ${counted(open, "of these numbers isn't", "of these numbers aren't")} certain, and drawn as stretches.`}`;
  }

  // What the marks mean that are drawn in a chunk of rows, as far as that doesn't stand in the legend yet.
  addToLegend(chunk) {
    const samples = [
      ["mark admitted", "admitted"], ["wait pass", "in its first pass"],
      ["wait up", this.isFine && !this.derived ? "in its first pass, or waits for the server" : "waits for the server"],
      ["mark decided", "decided by the server"],
      ["wait kept", "its output isn't out yet"], ["wait held", "held until its version is acknowledged"],
      ["wait free", "held, and may go"], ["wait perhaps", "one or the other"],
      ["wait down", "let go, on its way down"], ["wait second", "in its second pass"], ["mark sent", "sent"],
      ["mark dropped", "dropped"], ["mark fast", "fast: sent by the switch alone"],
      ["mark fast drops", "fast, dropped"], ["wait open", "still on its way"],
    ];
    for (const [shape] of samples) {
      if (!this.shapes.has(shape) && chunk.querySelector(`.track > .${shape.replaceAll(" ", ".")}`)) {
        this.shapes.add(shape);
      }
    }
    this.legend.replaceChildren(...samples.filter(([shape]) => this.shapes.has(shape)).map(([shape, text]) =>
      makeWith("li", "", [makeWith("span", "sample", [make("i", shape)]), make("span", "", text)])));
  }

  // The window of events that is shown, and the controls that change it.
  drawWindow() {
    const number = (title, least, most) => {
      const input = make("input");
      input.type = "number";
      input.min = least;
      input.max = most;
      return { input, label: makeWith("label", "", [`${title} `, input]) };
    };
    const from = number("events from", 1, this.report.events);
    const to = number("to", 1, this.report.events);
    const packet = number("go to packet", 0, Math.max(0, this.report.packets.length - 1));
    packet.input.addEventListener("change", () => this.goTo(Number(packet.input.value)));
    this.inputs = [from.input, to.input];
    this.inputs.forEach((input) => input.addEventListener("change", () =>
      this.show(Number(from.input.value) - 0.5, Number(to.input.value) + 0.5)));
    this.hint = make("p", "hidden-columns");
    const button = (title, change) => {
      const made = make("button", "", title);
      made.type = "button";
      made.addEventListener("click", () => this.show(...change(this.from, this.to, (this.to - this.from) / 4)));
      return made;
    };
    return makeWith("div", "window", [
      from.label, to.label,
      button("closer", (low, high, step) => [low + step, high - step]),
      button("wider", (low, high, step) => [low - 2 * step, high + 2 * step]),
      button("earlier", (low, high, step) => [low, high].map((at) => at - Math.min(step, low - 0.5))),
      button("later", (low, high, step) => [low, high].map((at) => at + Math.min(step, this.last - high))),
      button("all", () => [0.5, this.last]), packet.label,
    ]);
  }

  // Goes to the row of the packet, with a window in which its way is seen.
  goTo(number) {
    const packet = this.report.packets[number];
    if (packet) {
      const end = packet.released || packet.admitted;
      if (packet.admitted < this.from || end > this.to) {
        const half = Math.max(this.to - this.from, 2 * (end - packet.admitted)) / 2;
        this.show((packet.admitted + end) / 2 - half, (packet.admitted + end) / 2 + half);
      }
      this.chunks.fillAround(number);
      const mark = this.rows[number].querySelector(".mark");
      mark.focus();
      mark.scrollIntoView({ block: "center" });
    }
  }

  // Shows the events between two places. What is drawn stands where it stands by two numbers of the style sheet.
  show(from, to) {
    this.from = Math.max(0.5, Math.min(Math.round(from - 0.5) + 0.5, this.last - 1));
    this.to = Math.min(Math.max(this.last, 1.5), Math.max(Math.round(to - 0.5) + 0.5, this.from + 1));
    const span = this.to - this.from;
    const parts = [this.timeline, ...(this.datagrams ? [this.datagrams.part] : [])];
    parts.forEach((part) => {
      part.style.setProperty("--from", this.from);
      part.style.setProperty("--span", span);
    });
    this.inputs[0].value = this.from + 0.5;
    this.inputs[1].value = this.to - 0.5;
    for (const { picture, heightsOf, fill } of this.pictures) {
      if (fill) {
        fill(this.from, this.to);
      }
      const [top, height] = heightsOf(this.from, this.to);
      picture.setAttribute("viewBox", `${this.from} ${top} ${span} ${height}`);
    }
    this.drawTicks();
    this.tellHiddenEvents();
  }

  // The numbers of events above the ways, as many as have room.
  drawTicks() {
    const most = Math.max(2, Math.min(16, (this.axis.querySelector(".track").clientWidth || 800) / TICK_WIDTH));
    const step = [1, 2, 5].flatMap((digit) => [0, 1, 2, 3, 4, 5, 6, 7].map((power) => digit * 10 ** power))
      .filter((size) => (this.to - this.from) / size <= most).reduce((one, other) => Math.min(one, other));
    for (const axis of [this.axis, ...(this.datagrams ? [this.datagrams.axis] : [])]) {
      const ticks = [];
      for (let event = Math.ceil(this.from / step) * step; event < this.to; event += step) {
        const tick = make("span", "tick", grouped(event));
        tick.style.setProperty("--at", event);
        ticks.push(tick);
      }
      axis.querySelector(".track").replaceChildren(...ticks);
    }
  }

  // Which events aren't in sight, and whether more than one stand in one column of the screen.
  tellHiddenEvents() {
    const { events } = this.report;
    const [first, last] = [this.from + 0.5, this.to - 0.5];
    const stretches = [[1, first - 1], [last + 1, events]].filter(([one, other]) => one <= other);
    const hidden = stretches.reduce((sum, [one, other]) => sum + other - one + 1, 0);
    const named = stretches.map(([one, other]) => rangeOf({ least: one, most: other }, ""));
    const width = this.axis.querySelector(".track").clientWidth;
    const shared = width > 0 ? Math.ceil((last - first + 1) / width) : 1;
    const told = hidden === 0 ? [] : [`${grouped(hidden)} of ${grouped(events)} columns of events are hidden: ${
      named.join(" and ")}. The button "all" shows them, "earlier" and "later" go there.`];
    if (shared > 1) {
      told.push(`Up to ${counted(shared, "event")} share one column of the screen. The button `
        + "\"closer\" draws them apart.");
    }
    this.hint.textContent = told.join(" ");
    this.hint.dataset.hidden = hidden;
  }

  // The stretch between two events, with a mark at its ends.
  stretch(classes, from, until) {
    const element = make("i", `wait ${classes}`);
    element.style.setProperty("--at", from);
    element.style.setProperty("--until", until);
    return element;
  }

  point(name, event) {
    const element = make("b", `mark ${name}`);
    element.style.setProperty("--at", event);
    element.tabIndex = -1;
    element.setAttribute("role", "img");
    element.setAttribute("aria-label", `${name} at event ${event}`);
    return element;
  }

  drawWay(packet) {
    const { number, way, admitted, decided, released, port, version } = packet;
    const track = make("span", "track");
    const verdict = make("span", "verdict");
    const open = released ? "" : " open";
    const end = released || this.last;
    if (way !== "fast" || admitted < released) {
      const parts = [...this.partsBefore(packet, decided || end), ...(way === "slow" ? this.partsOf(packet, end) : [])];
      parts.forEach(([name, from, until], place) =>
        track.append(this.stretch(`${name}${place === parts.length - 1 ? open : ""}`, from, until)));
      track.append(this.point("admitted", admitted));
      verdict.textContent = way === "up" ? "… waits for the server" : "… in its first pass";
    }
    if (way === "slow") {
      track.append(this.point("decided", decided));
      verdict.textContent = `… ${this.placeOf(packet)}`;
    }
    if (released) {
      const name = port === null ? "dropped" : "sent";
      const mark = this.point(way === "fast" ? "fast" : name, released);
      mark.classList.toggle("drops", way === "fast" && port === null);
      track.append(mark);
      verdict.replaceChildren(port === null ? "✕ dropped" : `▶ port ${port}`, ...(port === null ? []
        : [make("span", "bytes", `, ${counted(packet.bytes, "byte")}`)]));
    }
    const label = makeWith("span", "label", [
      make("b", "", number), way === "fast" ? " fast" : "",
      version !== undefined && this.report.version > 0 ? ` v${version}` : "",
    ]);
    const row = makeWith("div", `row ${way}${open}`, [label, track, verdict]);
    this.rows[number] = row;
    return tellOf(row, (target) => this.tellPacket(packet, undefined, Number(target.style.getPropertyValue("--at"))));
  }

  // The stretches of a packet's way until its decision, each with its ends.
  partsBefore(packet, end) {
    const { way, admitted } = packet;
    const { least, most } = way === "up" || way === "slow" ? this.upOf(packet) : { least: end, most: end };
    return [["pass", admitted, least], ["perhaps", least, most], ["up", most, end]]
      .filter(([, from, until]) => from < until);
  }

  // The stretches of a packet's way from its decision on, each with its ends.
  partsOf({ number, decided, version }, end) {
    if (!this.derived) {
      return [["kept", decided, end]];
    }
    const { known, letGo, cameDown } = this.derived.ranges;
    const inside = (event) => Math.min(Math.max(event, decided), end);
    const never = { least: Infinity, most: Infinity };
    const seen = version === 0 ? { least: 0, most: 0 } : known.get(version) || never;
    const gone = letGo.get(number) || never;
    const place = end < this.last ? "out" : this.derived.placeOf(number);
    const isOut = place !== null && place !== "held";
    const [least, most] = [inside(gone.least), inside(isOut ? gone.most : Infinity)];
    const isSure = version === 0 || end < this.last || this.derived.isKnown(version);
    const [first, last] = [Math.min(inside(seen.least), least), Math.min(inside(isSure ? seen.most : Infinity), least)];
    const down = cameDown.get(number) || never;
    const entered = Math.max(most, inside(down.least));
    const passes = Math.max(entered, inside(isOut && place !== "down" ? down.most : Infinity));
    const parts = [["held", decided, first], ["perhaps", first, last], ["free", last, least], ["perhaps", least, most],
      ["down", most, entered], ["perhaps", entered, passes], ["second", passes, end]]
      .filter(([, from, until]) => from < until);
    return parts.length > 0 ? parts : [["down", end, end]];
  }

  // Where a packet is that was decided and isn't out.
  placeOf({ number, version }) {
    const place = this.derived ? this.derived.placeOf(number) : null;
    if (place === null) {
      return this.isFine ? "held, on its way down, or in its second pass" : "held, or on its way down";
    }
    return place === "down" ? "on its way down" : place === "second" ? "in its second pass"
      : this.derived.isKnown(version) ? "held, and may go" : `held for version ${version}`;
  }

  // The serial order: seats, and lines from the rows of the packets to them, which are made as they come into sight.
  drawOrder() {
    const { order, packets } = this.report;
    const height = Math.max(1, packets.length) * ROW_HEIGHT;
    const viewBox = `0 0 60 ${height}`;
    this.slopes = makeVector("svg", { viewBox, height, class: "slopes", preserveAspectRatio: "none" });
    this.seatChunks = Array.from({ length: Math.ceil(order.length / CHUNK) }, (_, place) => {
      const chunk = make("div", "chunk");
      chunk.style.height = `${Math.min(CHUNK, order.length - place * CHUNK) * ROW_HEIGHT}px`;
      return chunk;
    });
    // Lines that reach over more than a chunk, which may be in sight where neither end is.
    this.longPaths = order.filter((number, place) => Math.abs(number - place) >= CHUNK);
    return makeWith("div", "order", [
      make("h4", "", "Serial order"), this.slopes, makeWith("div", "seats", this.seatChunks),
    ]);
  }

  drawSeat(number, place) {
    const { order, packets } = this.report;
    const { version } = packets[number];
    const seat = makeWith("span", "mark seat", [make("b", "", number)]);
    const isFirst = place === 0 || packets[order[place - 1]].version !== version;
    if (isFirst && this.report.version > 0) {
      seat.append(make("span", "long", ` version ${version}`), make("span", "short", `v${version}`));
      seat.classList.add("first");
    }
    seat.tabIndex = -1;
    this.seats[number] = seat;
    return tellOf(seat, () => this.tellPacket(packets[number], place, 0));
  }

  // The lines that are in sight where the rows from one number up to another one are.
  drawPaths(from, until) {
    const { order } = this.report;
    const isAcross = (number) => {
      const place = this.places.get(number);
      return Math.min(number, place) < until && Math.max(number, place) >= from;
    };
    const here = Array.from({ length: until - from }, (_, at) => from + at).filter((number) => this.places.has(number));
    const inSight = [...here, ...order.slice(from, until), ...this.longPaths.filter(isAcross)];
    inSight.forEach((number) => this.drawPath(number));
  }

  drawPath(number) {
    if (this.paths[number]) {
      return;
    }
    const [place, middle] = [this.places.get(number), (at) => at * ROW_HEIGHT + ROW_HEIGHT / 2];
    this.paths[number] = makeVector("path", {
      d: `M0 ${middle(number)}C30 ${middle(number)} 30 ${middle(place)} 60 ${middle(place)}`,
      class: number === place ? "level" : number > place ? "earlier" : "later",
    });
    this.slopes.append(this.paths[number]);
  }

  relatedTo(number) {
    return [this.rows[number], this.seats[number], this.paths[number]].map((element) => ({ element, name: "same" }));
  }

  // What a packet waited for, and how long.
  historyOf(packet) {
    const { number, way, admitted, decided, released, version } = packet;
    const waited = (from, to) => `waited ${counted(to - from, "event")}`;
    if (way === "fast") {
      const start = admitted < released ? ` began its first pass at event ${admitted}, and` : "";
      return `Packet ${number}${start} never visited the server: the switch finished it at event ${released}, on `
        + `version ${version}`;
    }
    if (way === "pass") {
      return `Packet ${number} was admitted at event ${admitted}, and its first pass on the switch is under way`;
    }
    const up = this.upOf(packet);
    const isPassed = this.isFine && this.derived && up.least > admitted;
    const start = `Packet ${number} was admitted at event ${admitted}${
      isPassed ? `, ended its first pass at ${rangeOf(up, "event ")}` : ""}`;
    if (way === "up") {
      return `${start} and waits for the server, ${counted(this.report.events - up.most, "event")} so far`;
    }
    const goal = this.isFine && !this.derived ? "for its first pass and the server" : "for the server";
    const decision = `${start}, ${waited(up.most, decided)} ${goal}, and was decided at event ${decided}, `
      + `on version ${version}`;
    if (!this.derived) {
      return `${decision}. Its output ${waited(decided, released || this.report.events)}${released ? "" : " so far"}`;
    }
    const gone = this.derived.ranges.letGo.get(number);
    const isGone = released || ["down", "second"].includes(this.derived.placeOf(number));
    const down = this.derived.ranges.cameDown.get(number);
    const isDown = down && (released || this.derived.placeOf(number) === "second");
    const end = isGone ? `it was let go at ${rangeOf(gone, "event ")}${
      isDown ? `, and began its second pass at ${rangeOf(down, "event ")}` : ""}` : `it is ${this.placeOf(packet)}`;
    const wait = this.waitOf(packet);
    const known = this.derived.ranges.known.get(version);
    const isKnown = version === 0 || (wait && wait.most === 0);
    const need = version === 0 ? "No change has to be acknowledged for its output"
      : isKnown ? "Its version was acknowledged before"
      : known && this.derived.isKnown(version)
        ? `Its output waited ${rangeOf(wait, "")} ${wait.most === 1 ? "event" : "events"} for version ${version}, which`
          + ` was shown at ${rangeOf(this.derived.ranges.shown.get(version), "event ")} and acknowledged at ${
            rangeOf(known, "event ")}`
        : `Its output waits for version ${version}, which isn't ${known ? "certain to be " : ""}acknowledged`;
    return `${decision}. ${need}; ${end}`;
  }

  // Which fields a packet left with that it didn't arrive with.
  changesNoteOf({ released, port, hex }, arrived) {
    if (!released || port === null) {
      return "";
    }
    const texts = changesOf(arrived.hex, hex).map(({ field, before, after }) => {
      const textOf = (number) => textOfNumber(number, FIELD_MEANINGS.get(field));
      return `${field} ${textOf(before)} → ${textOf(after)}`;
    });
    return texts.length > 0 ? ` Changed: ${texts.join(", ")}.` : " It left as it arrived.";
  }

  tellPacket(packet, place, event) {
    const { number, way, version, released, port, line } = packet;
    const isMade = way === "slow" && this.versions.makers[version] === packet;
    const parts = [this.historyOf(packet), isMade ? `. It made version ${version}` : ""];
    const left = port === null ? "dropped" : `sent by port ${port}`;
    parts.push(released ? `. It was ${left} at event ${released}.` : ". It isn't out yet.");
    const arrived = this.trace && this.trace.packets[number];
    if (arrived) {
      parts.push(` It arrived by port ${arrived.port} with ${counted(arrived.bytes, "byte")}: ${
        summaryOf(arrived.hex)}.`, this.changesNoteOf(packet, arrived));
    }
    const performed = this.schedule && this.schedule.events[event - 1];
    const seat = this.places.get(number);
    if (seat !== undefined) {
      parts.push(` In the serial order ${counted(seat, "packet stands", "packets stand")} before it.`);
    }
    return {
      note: parts.join(""),
      lines: [{ kind: "report", line }, { kind: "report", line: place === undefined ? null : this.report.orderLine },
        ...(arrived ? [{ kind: "trace", line: arrived.line }] : []),
        ...(performed ? [{ kind: "schedule", line: performed.line }] : [])],
      related: this.relatedTo(number),
    };
  }
}
