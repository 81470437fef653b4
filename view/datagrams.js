"use strict";

// Draws what became of the datagrams of a run over links: a row for each datagram, with the lines of the schedule by
// which it was sent, arrived and was confirmed, over the same events as the ways of the packets.

const LINK_TITLES = new Map([
  ["up", "frames from the switch to the server"], ["down", "frames from the server to the switch"],
  ["ctl", "commands from the server to the switch"], ["ack", "acknowledgements from the switch to the server"],
]);

// What an item of a link is.
function itemName(link, { item }) {
  return link === "up" || link === "down" ? `packet ${item}` : link === "ctl" ? `command ${item}`
    : `acknowledgement of command ${item}`;
}

// What became of a datagram: how often it arrived, and the best that the receiver said of it.
function fateOf({ arrivals }) {
  const has = (fate) => arrivals.some((arrival) => arrival.fate === fate);
  return arrivals.length === 0 ? "lost" : has("new") ? "delivered" : has("again") ? "repeated" : "early";
}

const isConfirmed = ({ arrivals }) => arrivals.some(({ confirmation }) => confirmation && confirmation.read.length > 0);

const FATE_TEXTS = {
  lost: "it was sent, and never arrived", delivered: "it arrived, and its item was delivered",
  repeated: "it arrived, and its item had been delivered before", early: "it arrived too early, and wasn't taken",
};

// The same in a few words.
function verdictOf(datagram) {
  const fate = fateOf(datagram);
  return `${fate === "early" ? "too early" : fate}${isConfirmed(datagram) ? ", confirmed" : ""}`;
}

// The same in a sentence.
function storyOf(datagram) {
  const { arrivals } = datagram;
  const times = arrivals.length > 1 ? `; it arrived ${arrivals.length} times` : "";
  const confirmed = !arrivals.some(({ confirmation }) => confirmation) ? ""
    : isConfirmed(datagram) ? "; a confirmation of it came back" : "; no confirmation of it came back";
  return `${FATE_TEXTS[fateOf(datagram)]}${times}${confirmed}`;
}

// The numbers of a link: what was sent and lost, and what came of it.
function numbersOfLink({ items, datagrams, confirmations }) {
  const arrivals = datagrams.flatMap((datagram) => datagram.arrivals);
  const having = (list, fits) => list.filter(fits).length;
  const told = (fate) => having(arrivals, (arrival) => arrival.fate === fate);
  return {
    items: items.length, sent: datagrams.length, lost: having(datagrams, ({ arrivals: some }) => some.length === 0),
    arrivals: arrivals.length, delivered: told("new"), repeated: told("again"), early: told("early"),
    confirmations: confirmations.length, unread: having(confirmations, ({ read }) => read.length === 0),
    known: new Set(confirmations.filter(({ read }) => read.length > 0).map(({ number }) => number)).size,
  };
}

class DatagramDrawing {
  constructor(run, links, performed) {
    this.run = run;
    this.links = links;
    this.performed = performed;
    this.lines = run.linkSchedule.events;
  }

  // Where a line of the schedule stands among the events: one that came through at its event, any other between those
  // around it.
  placeOf(line) {
    const { performed } = this;
    let [low, high] = [0, performed.length];
    while (low < high) {
      const middle = (low + high) >> 1;
      [low, high] = performed[middle] <= line ? [middle + 1, high] : [low, middle];
    }
    const before = low > 0 ? performed[low - 1] : -1;
    const next = low < performed.length ? performed[low] : this.lines.length;
    const share = (line - before) / (next - before);
    return low === 0 ? 0.5 + share / 2 : low === performed.length ? low + share / 2 : low + share;
  }

  draw() {
    this.axis = drawBand(make("span", "label", "event"), [], "", 0);
    this.axis.classList.add("axis");
    this.part = makeWith("div", "timeline datagrams", [
      makeWith("div", "ways", [this.axis, ...this.links.map((link) => this.drawLink(link))]),
    ]);
    letKeysMove(this.part, ".row", null);
    return makeWith("div", "part", [
      make("h3", "", "Datagrams on the links"),
      make("p", "source", "A row for each datagram, over the events that came through. What was sent, arrived and was "
        + "confirmed stands between these, in the order of the schedule's lines."),
      this.drawLegend(), this.part,
    ]);
  }

  drawLegend() {
    const samples = [
      ["mark given", "item given to the link"], ["mark out", "datagram sent"], ["mark out lost", "sent, and lost"],
      ["mark in new", "arrived, and delivered"], ["mark in again", "arrived again, confirmed once more"],
      ["mark in early", "arrived too early, not taken"], ["mark read", "confirmation arrived"],
    ].filter(([shape]) => this.part.querySelector(`.track > .${shape.replaceAll(" ", ".")}`));
    return makeWith("ul", "legend", samples.map(([shape, text]) =>
      makeWith("li", "", [makeWith("span", "sample", [make("i", shape)]), make("span", "", text)])));
  }

  drawLink(link) {
    const numbers = numbersOfLink(link);
    const body = make("div", "rows");
    const told = numbers.items === 0 ? "nothing was given to it"
      : `${counted(numbers.items, "item")}; ${counted(numbers.sent, "datagram")} sent, ${
        grouped(numbers.lost)} of them lost; ${counted(numbers.arrivals, "arrival")}: ${grouped(numbers.delivered)} delivered, ${grouped(numbers.repeated)
      } repeated, ${grouped(numbers.early)} too early; ${counted(numbers.confirmations, "confirmation")} sent back, ${
        grouped(numbers.unread)} of them never read; ${counted(numbers.known, "item")} known to be delivered`;
    const firsts = new Map();
    link.datagrams.forEach((datagram) => firsts.set(datagram.number, firsts.get(datagram.number) || datagram));
    const drawers = link.datagrams.map((datagram) => () =>
      this.drawDatagram(link, datagram, firsts.get(datagram.number) === datagram));
    const unsent = link.items.filter((_, number) => !firsts.has(number));
    drawers.push(...unsent.map((item) => () => this.drawUnsent(link, item)));
    const part = makeWith("div", "link", [
      makeWith("header", "", [make("h4", "", link.name), make("span", "told-count", LINK_TITLES.get(link.name))]),
      make("p", "source", `${told}.`), body, fillRows(body, drawers),
    ]);
    part.dataset.link = link.name;
    part.dataset.numbers = Object.entries(numbers).map(([name, number]) => `${name} ${number}`).join(" ");
    return part;
  }

  mark(name, line) {
    const element = make("b", `mark ${name}`);
    element.style.setProperty("--at", this.placeOf(line));
    element.tabIndex = -1;
    element.dataset.line = line;
    element.setAttribute("role", "img");
    element.setAttribute("aria-label", name);
    return element;
  }

  stretch(name, from, until) {
    const element = make("i", `wait ${name}`);
    element.style.setProperty("--at", this.placeOf(from));
    element.style.setProperty("--until", this.placeOf(until));
    return element;
  }

  // The first datagram of an item has the giving of the item too.
  drawDatagram(link, datagram, isFirst) {
    const { number, sent, arrivals } = datagram;
    const item = link.items[number];
    const track = make("span", "track");
    for (const { place: arrived, confirmation } of arrivals) {
      track.append(this.stretch("flies", sent, arrived));
      (confirmation ? confirmation.read : []).forEach((read) => track.append(this.stretch("returns", arrived, read)));
    }
    track.append(...(isFirst ? [this.mark("given", item.given)] : []),
      this.mark(arrivals.length === 0 ? "out lost" : "out", sent));
    for (const { place: arrived, fate, confirmation } of arrivals) {
      track.append(this.mark(`in ${fate}`, arrived));
      (confirmation ? confirmation.read : []).forEach((read) => track.append(this.mark("read", read)));
    }
    return this.drawRow(link, item, track, verdictOf(datagram), datagram);
  }

  drawUnsent(link, item) {
    const track = makeWith("span", "track", [this.mark("given", item.given)]);
    return this.drawRow(link, item, track, "never sent", null);
  }

  drawRow(link, item, track, verdict, datagram) {
    const short = link.name === "up" || link.name === "down" ? `packet ${item.item}` : `command ${item.item}`;
    const row = makeWith("div", "row datagram", [
      makeWith("span", "label", [make("b", "", short)]), track, make("span", "verdict", verdict),
    ]);
    row.dataset.fate = datagram ? `${item.item}:${fateOf(datagram)}` : "";
    return tellOf(row, (target) => this.tellRow(link, item, datagram, target));
  }

  tellRow(link, item, datagram, target) {
    const lineOf = (place) => this.lines[place].line;
    const places = [item.given, ...(datagram ? [datagram.sent, ...datagram.arrivals.flatMap(({ place, confirmation }) =>
      [place, ...(confirmation ? confirmation.read : [])])] : [])];
    const pointed = target.dataset.line === undefined ? places : [Number(target.dataset.line)];
    const isPacket = link.name === "up" || link.name === "down";
    return {
      note: datagram ? `Link ${link.name}, a datagram of ${itemName(link.name, item)}: ${storyOf(datagram)}.`
        : `Link ${link.name}, ${itemName(link.name, item)}: no datagram of it was sent.`,
      lines: pointed.map((place) => ({ kind: "schedule", line: lineOf(place) })),
      related: isPacket ? this.run.relatedTo(item.item) : [],
    };
  }
}
