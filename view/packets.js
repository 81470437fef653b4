"use strict";

// Draws the packets of a run or of a replay as a table: what arrived, what became of it, and what was changed on the
// way.

// `packets` are those of an answer of run or of a report; `kind` is the kind of that text. A packet of a replay has its
// way beside it, and may not be out yet.
function drawPacketTable(packets, trace, kind) {
  const hasWay = kind === "report";
  const body = make("tbody");
  const more = fillRows(body, packets.map((packet) => () => drawPacketRow(packet, trace, kind)));
  const titles = ["packet", ...(trace ? ["arrived by", "what arrived"] : []), ...(hasWay ? ["way"] : []),
    "what became of it", trace ? "changed on the way" : "what left"];
  const head = makeWith("thead", "", [makeWith("tr", "", titles.map((title) => make("th", "text", title)))]);
  const part = makeWith("div", "packets", [makeWith("div", "wide", [makeWith("table", "", [head, body])]), more]);
  letKeysMove(part, "tbody", "tbody");
  return part;
}

// The same beside a replay, with what it is.
function drawPackets({ report, trace }) {
  const hint = trace ? [] : [make("p", "source",
    "With the trace beside it, the page shows what arrived, and which fields have changed.")];
  return makeWith("div", "part", [
    make("h3", "", "What arrived, and what left"), ...hint, drawPacketTable(report.packets, trace, "report"),
  ]);
}

const WAY_TITLES = { fast: "fast", slow: "by the server", up: "by the server", pass: "not known yet" };

function drawPacketRow(packet, trace, kind) {
  const { number, way, port, hex, bytes, line } = packet;
  const arrived = trace && trace.packets[number];
  const isOut = kind === "run" || Boolean(packet.released);
  const isSent = isOut && port !== null;
  const changes = arrived && isSent ? changesOf(arrived.hex, hex) : [];
  const parted = changes.flatMap((change, place) => [...(place ? [", "] : []), drawChange(change)]);
  const verdict = isSent ? `▶ port ${port}, ${counted(bytes, "byte")}` : isOut ? "✕ dropped" : "… not out yet";
  const left = arrived ? (parted.length || !isSent ? parted : ["nothing"]) : [isSent ? summaryOf(hex) : ""];
  const cells = [
    make("td", "", number),
    ...(arrived ? [make("td", "", `port ${arrived.port}`), make("td", "text arrived", summaryOf(arrived.hex))] : []),
    ...(kind === "report" ? [make("td", `text way ${way}`, WAY_TITLES[way])] : []),
    make("td", isSent ? "text sent-text" : isOut ? "text dropped-text" : "text", verdict), makeWith("td", "text", left),
  ];
  const row = makeWith("tr", `mark ${kind === "run" ? "serial-row" : "packet-row"}`, cells);
  row.tabIndex = -1;
  const became = isSent ? `was sent by port ${port}` : isOut ? "was dropped" : "isn't out yet";
  const came = () => (arrived ? `arrived by port ${arrived.port} (${summaryOf(arrived.hex)}), and ` : "");
  return tellOf(row, () => ({
    note: `Packet ${number} ${came()}${became}.`,
    lines: [{ kind, line }, ...(arrived ? [{ kind: "trace", line: arrived.line }] : [])],
  }));
}
