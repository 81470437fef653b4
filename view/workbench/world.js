"use strict";

// The world between two events of a replay: which packets are where, and how far the commands have come. It follows the
// reports of the program, which say when each packet was admitted, decided and released, and the program's counts of
// idle events, which say of each event whether it found anything to do.

class World {
  // `stages` are those of the passes of a fine run, and 0 in any other; `idle` says of each event whether it was idle.
  constructor(report, events, idle, stages) {
    Object.assign(this, { report, stages, passes: [], up: [], held: [], down: [], out: [], next: 0, version: 0,
      sent: 0, applied: 0, known: 0, notes: [] });
    events.forEach((event, place) => {
      this.now = place + 1;
      this.notes.push({ ...event, isIdle: idle[place], note: idle[place] ? this.whyIdle(event) : this.act(event) });
    });
  }

  packet(number) {
    return this.report.packets[number] || {};
  }

  act({ letter, item }) {
    return {
      a: () => this.admit(), s: () => this.takeStage(item), u: () => this.decide(item), h: () => this.letGo(item),
      d: () => this.comeDown(item),
      c: () => `command ${this.sent += 1} is sent to the switch`,
      w: () => `the switch applies command ${this.applied += 1}`,
      k: () => `command ${this.known += 1} is acknowledged`,
    }[letter]();
  }

  admit() {
    const number = this.next;
    this.next += 1;
    return this.enter(number, "before", `packet ${number} is admitted`);
  }

  // A pass enters, and ends at once where it has no stages.
  enter(number, side, told) {
    if (this.stages[side] === 0) {
      return `${told}${this.leave(number, side)}`;
    }
    this.passes.push({ number, side, left: this.stages[side] });
    return `${told}: its pass ${side} the server has ${counted(this.stages[side], "stage")}`;
  }

  leave(number, side) {
    const { way, released, port, version } = this.packet(number);
    const isFast = side === "before" && way === "fast" && released === this.now;
    if (side === "before" && !isFast) {
      this.up.push(number);
      return ", and goes up to the server";
    }
    this.out.push(number);
    const end = port === null ? "dropped" : `sent by port ${port}`;
    return isFast ? `, and the switch finishes it over version ${version}: it is ${end}` : `, and is ${end}`;
  }

  takeStage(item) {
    const pass = this.passes[item];
    pass.left -= 1;
    if (pass.left > 0) {
      return `packet ${pass.number} takes a stage, ${pass.left} left`;
    }
    this.passes.splice(item, 1);
    return `the pass of packet ${pass.number} ends${this.leave(pass.number, pass.side)}`;
  }

  decide(item) {
    const [number] = this.up.splice(item, 1);
    this.held.push(number);
    const { version } = this.packet(number);
    const isNew = version > this.version;
    this.version = Math.max(this.version, version);
    return `the server runs packet ${number}${isNew ? `, which makes version ${version}` : ""}; its output waits${
      version > 0 ? ` until version ${version} is acknowledged` : " for nothing"}`;
  }

  letGo(item) {
    const [number] = this.held.splice(item, 1);
    this.down.push(number);
    return `the output of packet ${number} is let go`;
  }

  comeDown(item) {
    const [number] = this.down.splice(item, 1);
    return this.enter(number, "after", `packet ${number} comes down`);
  }

  // Why an event finds nothing to do here.
  whyIdle({ letter, item }) {
    const lists = { s: ["passes", "pass is under way"], u: ["up", "packet waits for the server"],
      h: ["held", "output is held"], d: ["down", "packet comes down"] };
    if (lists[letter] && item >= this[lists[letter][0]].length) {
      const [list, word] = lists[letter];
      return this[list].length === 0 ? `no ${word}` : `there is no item ${item}`;
    }
    const fixed = { a: "every packet is admitted", c: "no command waits to be sent",
      k: "no command waits to be acknowledged" };
    if (letter === "h") {
      const { version } = this.packet(this.held[item]);
      return `the output of packet ${this.held[item]} waits for version ${version}, which isn't acknowledged`;
    }
    if (letter === "w") {
      return this.applied === this.sent ? "no command is on its way"
        : "the next command would change what a pass under way sees";
    }
    return fixed[letter] || "nothing to do";
  }

  // Whether the report says the same of every packet.
  get isTold() {
    const { packets } = this.report;
    const ways = (numbers, fits) => numbers.every((number) => packets[number] && fits(packets[number]));
    return packets.length === this.next && ways(this.up, ({ way }) => way === "up")
      && ways([...this.held, ...this.down], ({ way, released }) => way === "slow" && !released)
      && ways(this.out, ({ released }) => released);
  }
}

// For each event of a schedule whether it is idle, found from the program's counts of idle events up to some of them.
class IdleCounts {
  constructor() {
    this.counts = [0];
  }

  // Keeps what is known of the first events.
  cut(length) {
    this.counts.length = Math.min(this.counts.length, length + 1);
  }

  set(place, idle) {
    this.counts[place] = idle;
  }

  // Fills in the counts between two known ones where they leave no choice; returns where else to ask, at most so many.
  open(length, most) {
    const wanted = [];
    let low = 0;
    for (let high = 1; high <= length; high += 1) {
      if (this.counts[high] === undefined) {
        continue;
      }
      const idle = this.counts[high] - this.counts[low];
      const span = high - low;
      if (idle === 0 || idle === span) {
        for (let place = low + 1; place < high; place += 1) {
          this.counts[place] = this.counts[low] + (idle === 0 ? 0 : place - low);
        }
      } else if (span > 1) {
        const step = Math.max(1, Math.ceil(span / 16));
        for (let place = low + step; place < high && wanted.length < most; place += step) {
          wanted.push(place);
        }
      }
      low = high;
    }
    return wanted;
  }

  flags(length) {
    return Array.from({ length }, (_, place) => this.counts[place + 1] > this.counts[place]);
  }
}
