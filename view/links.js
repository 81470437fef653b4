"use strict";

// What a report of `lossy` makes certain of a run when its schedule over links stands beside it (docs/links.md): which
// lines of the schedule came through, and what became of each datagram and each confirmation.

// One link: what its sender and its receiver know, and what was sent on it so far.
class Link {
  constructor(isOrdered) {
    Object.assign(this, {
      isOrdered, items: [], sent: [], delivered: new Set(), back: [], unknown: [], known: new Set(),
    });
  }

  copy() {
    const { items, sent, delivered, back, unknown, known } = this;
    return Object.assign(new Link(this.isOrdered), {
      items: [...items], sent: [...sent], delivered: new Set(delivered), back: [...back], unknown: [...unknown],
      known: new Set(known),
    });
  }

  give(item) {
    this.unknown.push(this.items.length);
    this.items.push(item);
  }

  // Sends the datagram of an item that isn't known to be delivered. Returns the number of the item, or null.
  send(place) {
    if (place >= this.unknown.length) {
      return null;
    }
    this.sent.push(this.unknown[place]);
    return this.unknown[place];
  }

  // Lets a datagram arrive. Returns the number of its item and what the receiver says of it, or null.
  arrive(place) {
    if (place >= this.sent.length) {
      return null;
    }
    const number = this.sent[place];
    const fate = this.delivered.has(number) ? "again"
      : this.isOrdered && number !== this.delivered.size ? "early" : "new";
    if (fate === "new") {
      this.delivered.add(number);
    }
    if (fate !== "early") {
      this.back.push(number);
    }
    return { number, fate };
  }

  // Lets a confirmation arrive. Returns the number that it confirms, or null.
  confirm(place) {
    if (place >= this.back.length) {
      return null;
    }
    const number = this.back[place];
    if (!this.known.has(number)) {
      this.known.add(number);
      this.unknown.splice(this.unknown.indexOf(number), 1);
    }
    return number;
  }
}

// The places of the links in a list of them.
const [UP, DOWN, CTL, ACK] = LINK_NAMES.keys();
const makeLinks = () => LINK_NAMES.map((name) => new Link(name === "ctl" || name === "ack"));

class LinkDerivation extends Derivation {
  constructor(report, schedule, most, room) {
    super(report, schedule, { before: 0, after: 0 }, most, room);
  }

  firstRun() {
    return { ...super.firstRun(), line: 0, links: makeLinks() };
  }

  // More changes than commands were sent can't be told from just as many.
  boundsOf(most) {
    const sent = Math.max(1, this.report.links[CTL].items);
    const { made } = versionsOf(this.report);
    this.orMore = new Set(most === null || most > sent ? made.keys() : []);
    return made.map(() => Math.min(sent, most === null ? sent : most));
  }

  // The next line that comes through. What stands before it is done: datagrams and confirmations are sent and arrive.
  nextOf(run, event, isOne) {
    const { events } = this.schedule;
    while (run.line < events.length) {
      const given = events[run.line];
      run.line += 1;
      if (given.link) {
        this.pass(run, given);
      } else if (this.comesThrough(run, given)) {
        this.note(run, isOne, "line", event, run.line - 1);
        return given;
      }
    }
    return null;
  }

  pass(run, { letter, link, item }) {
    const at = run.links[LINK_NAMES.indexOf(link)];
    const end = letter === "x" ? at.send(item) : letter === "y" ? at.arrive(item) : at.confirm(item);
    if (letter === "y" && end && end.fate === "new" && (link === "up" || link === "down")) {
      run[link].push(at.items[end.number]);
    }
  }

  comesThrough(run, { letter, item }) {
    const { up, down, held, known, sent, total, applied, acknowledged, links } = run;
    return {
      a: this.admitted < this.report.total, u: item < up.length, d: item < down.length, c: sent < total,
      w: applied < links[CTL].delivered.size, k: acknowledged < links[ACK].delivered.size,
      h: item < held.length && held[item].version <= known,
    }[letter];
  }

  apply(run, letter, item, event, isOne) {
    const applies = super.apply(run, letter, item, event, isOne);
    if (letter === "c") {
      run.links[CTL].give(run.sent);
    } else if (letter === "w") {
      run.links[ACK].give(run.applied);
    }
    return applies;
  }

  sendUp(run, packet) {
    run.links[UP].give(packet);
  }

  sendDown(run, packet) {
    run.links[DOWN].give(packet);
  }

  // Runs whose links differ go on in different ways.
  merged(runs) {
    return runs;
  }

  // Whether nothing comes through any more, and the links are as the report says.
  isEnd(run) {
    const isAsTold = ({ items, sent, delivered, known }, place) => {
      const told = this.report.links[place];
      return items.length === told.items && sent.length === told.sent && delivered.size === told.delivered
        && known.size === told.known;
    };
    return this.nextOf(run, null, false) === null && run.links.every(isAsTold) && super.isEnd(run);
  }

  isDrained(run) {
    const isEmpty = ({ items, delivered }) => items.length === delivered.size;
    return super.isDrained(run) && isEmpty(run.links[UP]) && isEmpty(run.links[DOWN]);
  }

  // The lines that came through, in order, each with its place among all lines; or null where that isn't certain.
  get performed() {
    const places = Array.from({ length: this.report.events }, (_, place) => this.facts.line.get(place + 1));
    return places.some((place) => place === undefined || place === null) ? null : places;
  }
}

// What became of the datagrams of each link, where it is certain which lines came through: for each link its items, and
// its datagrams in the order in which they were sent. Every time is the place of a line in the schedule.
function datagramsOf(report, { events }, performed) {
  const through = new Map(performed.map((place, event) => [place, event + 1]));
  const goesUp = new Map(report.packets.filter(({ way }) => way !== "fast").map((packet) => [packet.admitted, packet]));
  const links = makeLinks();
  const told = LINK_NAMES.map((name) => ({ name, items: [], datagrams: [], confirmations: [] }));
  const give = (link, item, place) => {
    links[link].give(item);
    told[link].items.push({ item, given: place });
  };
  // Which packets the server holds is said by the events that run them and let them go.
  const held = [];
  const slow = report.packets.filter(({ way }) => way === "slow");
  const decidedAt = new Map(slow.map((packet) => [packet.decided, packet]));
  let [sent, applied] = [0, 0];
  const perform = ({ letter, item }, place, event) => {
    if (letter === "a" && goesUp.has(event)) {
      give(UP, goesUp.get(event).number, place);
    } else if (letter === "u") {
      held.push(decidedAt.get(event));
    } else if (letter === "h") {
      give(DOWN, held.splice(item, 1)[0].number, place);
    } else if (letter === "c") {
      sent += 1;
      give(CTL, sent, place);
    } else if (letter === "w") {
      applied += 1;
      give(ACK, applied, place);
    }
  };
  const pass = ({ letter, link, item }, place) => {
    const at = LINK_NAMES.indexOf(link);
    const { datagrams, confirmations } = told[at];
    if (letter === "x") {
      const number = links[at].send(item);
      if (number !== null) {
        datagrams.push({ number, sent: place, arrivals: [] });
      }
    } else if (letter === "y") {
      const end = links[at].arrive(item);
      if (end) {
        const confirmation = end.fate === "early" ? null : { number: end.number, read: [] };
        datagrams[item].arrivals.push({ place, fate: end.fate, confirmation });
        confirmations.push(...(confirmation ? [confirmation] : []));
      }
    } else if (links[at].confirm(item) !== null) {
      confirmations[item].read.push(place);
    }
  };
  events.forEach((line, place) => {
    if (line.link) {
      pass(line, place);
    } else if (through.has(place)) {
      perform(line, place, through.get(place));
    }
  });
  return told;
}
