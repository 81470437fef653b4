"use strict";

// Draws the answer of `run`: what became of each packet, one by one, and the rows at the end.

class SerialDrawing {
  constructor(run, trace, meanings) {
    this.run = run;
    this.trace = trace;
    this.meanings = meanings;
  }

  draw() {
    const { packets } = this.run;
    const sent = packets.filter(({ port }) => port !== null).length;
    const facts = [["packets", grouped(packets.length)], ["sent", grouped(sent)],
      ["dropped", grouped(packets.length - sent)]];
    const pairs = facts.map(([name, value]) => makeWith("div", "", [make("dt", "", name), make("dd", "", value)]));
    return makeWith("section", "serial", [
      make("h2", "", "What the source does with the packets, one by one"), makeWith("dl", "facts", pairs),
      ...(this.trace ? [] : [make("p", "source", "With the trace beside it, the page shows what arrived, and which "
        + "fields have changed.")]),
      drawPacketTable(packets, this.trace, "run"), drawState(this.run, "run", this.meanings),
    ]);
  }
}
