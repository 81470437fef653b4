"use strict";

// Readers of the texts that the program reads and writes. Each returns what its text says, with the line of each part,
// or throws a Refusal that names the first line that isn't in the form.

// The line and the column are null where none is to blame.
class Refusal extends Error {
  constructor(line, reason, column = null) {
    super(reason);
    Object.assign(this, { line, column });
  }
}

// The fields of a packet with their bits, in field order.
const FIELD_WIDTHS = new Map([
  ["meta.port", 8], ["meta.len", 16], ["has.ip", 1], ["has.tcp", 1], ["has.udp", 1],
  ["eth.dst", 48], ["eth.src", 48], ["eth.type", 16], ["vlan.pcp", 3], ["vlan.dei", 1], ["vlan.id", 12],
  ["ip.version", 4], ["ip.ihl", 4], ["ip.tos", 8], ["ip.len", 16], ["ip.id", 16], ["ip.flags", 3], ["ip.frag", 13],
  ["ip.ttl", 8], ["ip.proto", 8], ["ip.sum", 16], ["ip.src", 32], ["ip.dst", 32],
  ["tcp.sport", 16], ["tcp.dport", 16], ["tcp.seq", 32], ["tcp.ack", 32], ["tcp.off", 4], ["tcp.res", 4],
  ["tcp.flags", 8], ["tcp.win", 16], ["tcp.sum", 16], ["tcp.urg", 16],
  ["udp.sport", 16], ["udp.dport", 16], ["udp.len", 16], ["udp.sum", 16],
]);

// The operators with the number of their operands that are values.
const OPERATORS = new Map([
  ["add", 2], ["sub", 2], ["mul", 2], ["div", 2], ["rem", 2], ["and", 2], ["or", 2], ["xor", 2], ["not", 1],
  ["shl", 1], ["shr", 1], ["eq", 2], ["ne", 2], ["lt", 2], ["le", 2], ["cast", 1], ["select", 3], ["adjust", 3],
]);

const LIMIT_NAMES = ["table_bits", "stages", "writeback", "transfer_bytes"];
const NUMBER = "(0|[1-9][0-9]*)";
const VALUE = /^(0|[1-9][0-9]*)\.(0|[1-9][0-9]*)$/;
const NAME = "([A-Za-z][A-Za-z0-9_]*)";

function linesOf(text) {
  const lines = text.split("\n");
  if (lines[lines.length - 1] === "") {
    lines.pop();
  }
  return lines.map((line) => (line.endsWith("\r") ? line.slice(0, -1) : line));
}

const compiled = new Map();

// The regular expression for whole lines of the pattern, made once.
function wholeLine(pattern) {
  if (!compiled.has(pattern)) {
    compiled.set(pattern, new RegExp(`^${pattern}$`));
  }
  return compiled.get(pattern);
}

// Walks over the lines of a text. Lines that `skipped` says yes to are passed over.
class LineReader {
  constructor(text, skipped) {
    this.lines = linesOf(text);
    this.skipped = skipped;
    this.place = 0;
    this.pass();
  }

  pass() {
    while (this.place < this.lines.length && this.skipped(this.lines[this.place])) {
      this.place += 1;
    }
  }

  // The number of the next line, from 1.
  get number() {
    return this.place + 1;
  }

  get ended() {
    return this.place >= this.lines.length;
  }

  refuse(wanted) {
    throw new Refusal(this.number, `expected ${wanted}${this.ended ? ", but the text ends here" : ""}`);
  }

  // The parts of the next line where it fits the pattern; the walk then goes on after it. A pattern of whole lines may
  // be a regular expression.
  match(pattern) {
    const form = pattern instanceof RegExp ? pattern : wholeLine(pattern);
    const parts = this.ended ? null : form.exec(this.lines[this.place]);
    if (parts) {
      this.place += 1;
      this.pass();
    }
    return parts;
  }

  take(pattern, wanted) {
    return this.match(pattern) || this.refuse(wanted);
  }

  end() {
    if (!this.ended) {
      this.refuse("the end of the text");
    }
  }
}

const LISTED = /^# (?:instructions |accesses |block |[0-9]+ b|send |write )/;
const isNoListing = (line) => line === "" || (line.startsWith("#") && !LISTED.test(line));
const isSkipped = (line) => line === "" || line.startsWith("#");

function readValue(word, below) {
  const parts = VALUE.exec(word || "");
  if (!parts || Number(parts[1]) >= below) {
    return null;
  }
  return { instruction: Number(parts[1]), result: Number(parts[2]) };
}

const valueName = (value) => `${value.instruction}.${value.result}`;

// What stands after the block in the line of an instruction, or null where it isn't in the form.
function readKind(words, number) {
  const kind = words[0];
  const instruction = { kind, operands: [], width: null, loop: false };
  const rest = words.slice(1);
  const isAccess = kind === "look" || kind === "put" || kind === "del";
  if (rest.length > 1 && rest[rest.length - 1] === "loop") {
    instruction.loop = true;
    rest.pop();
  }
  let operandWords = rest;
  if (kind === "const") {
    instruction.constant = rest[1];
  } else if (kind === "field") {
    instruction.field = rest[0];
    instruction.width = FIELD_WIDTHS.get(rest[0]) || null;
    return rest.length === 1 && instruction.width ? instruction : null;
  } else if (isAccess) {
    instruction.object = rest[0];
    operandWords = rest.slice(1);
    if (!wholeLine(NAME).test(rest[0] || "")) {
      return null;
    }
  } else if (kind === "byte") {
    instruction.width = 8;
  } else if (!OPERATORS.has(kind)) {
    return null;
  }
  if (kind === "const" || OPERATORS.has(kind)) {
    instruction.width = /^[1-9][0-9]?$/.test(rest[0] || "") ? Number(rest[0]) : 65;
    operandWords = rest.slice(1);
    if (instruction.width > 64) {
      return null;
    }
  }
  if (kind === "const") {
    return rest.length === 2 && /^(0|[1-9][0-9]{0,19})$/.test(rest[1]) ? instruction : null;
  }
  if (kind === "shl" || kind === "shr") {
    instruction.shift = operandWords.pop();
    if (!/^[0-9]{1,2}$/.test(instruction.shift || "")) {
      return null;
    }
  }
  instruction.operands = operandWords.map((word) => readValue(word, number));
  const wanted = kind === "byte" ? 1 : OPERATORS.get(kind);
  const fits = isAccess || instruction.operands.length === wanted;
  return fits && !instruction.operands.includes(null) ? instruction : null;
}

function readInstruction(reader, number, blocks) {
  const line = reader.number;
  const parts = reader.take(`# ${NUMBER} b${NUMBER} (.+)`, `instruction ${number}`);
  const instruction = readKind(parts[3].split(" "), number);
  if (Number(parts[1]) !== number || Number(parts[2]) >= blocks.length || !instruction) {
    throw new Refusal(line, `expected instruction ${number}, of a known kind, with operands of lower numbers`);
  }
  return Object.assign(instruction, { number, block: Number(parts[2]), line });
}

// Where an instruction is done: its stages in the two passes, and who gives its results to a packet that visits the
// server.
function readPart(reader, number) {
  const line = reader.number;
  const wanted = `where instruction ${number} is done`;
  const parts = reader.take(`${NUMBER} (-|${NUMBER}) (carried|server|post ${NUMBER})`, wanted);
  const before = parts[2] === "-" ? null : Number(parts[2]);
  const after = parts[5] === undefined ? null : Number(parts[5]);
  if (Number(parts[1]) !== number || before > 4096 || after > 4096) {
    throw new Refusal(line, `expected ${wanted}`);
  }
  return { before, after, slow: parts[4].split(" ")[0], partLine: line };
}

// The split text from its first line on: a part for each instruction.
function readParts(reader, total) {
  reader.take(`split 1 ${total}`, `\`split 1 ${total}\``);
  const parts = Array.from({ length: total }, (_, number) => readPart(reader, number));
  reader.take("end", "`end`");
  reader.end();
  return parts;
}

// A split text that stands alone: which instructions its parts are of is what its source says.
function readSplit(text) {
  const reader = new LineReader(text, isSkipped);
  const splitLine = reader.number;
  const [, total] = wholeLine(`split 1 ${NUMBER}`).exec(reader.lines[reader.place]) || reader.refuse("`split 1 N`");
  if (Number(total) > MOST_INSTRUCTIONS) {
    throw new Refusal(splitLine, `a split has at most ${grouped(MOST_INSTRUCTIONS)} instructions`);
  }
  return { parts: readParts(reader, Number(total)), splitLine, lines: reader.lines };
}

// The answer of compile: counts, blocks, instructions with their places, and the output. Other comments than those that
// compile prints are passed over, as anyone who edits the split may add some.
function readAnswer(text) {
  const reader = new LineReader(text, isNoListing);
  const total = Number(reader.take(`# instructions ${NUMBER}`, "the number of instructions")[1]);
  const countsLine = reader.number;
  const names = ["accesses", "stages", "table_bits", "writeback", "transfer_bytes"];
  const pattern = `# ${names.map((name) => `${name} ${NUMBER}`).join(" ")}`;
  const found = reader.take(pattern, "the line that says what the split takes");
  const counts = new Map(names.map((name, place) => [name, Number(found[place + 1])]));

  const blocks = [{ number: 0, parent: null, line: null }];
  const blockStart = "# block ";
  while (!reader.ended && reader.lines[reader.place].startsWith(blockStart)) {
    const line = reader.number;
    const parts = reader.take(`# block ${NUMBER} in ${NUMBER} when (\\S+) is ([01])`, "a block");
    const condition = readValue(parts[3], total);
    if (Number(parts[1]) !== blocks.length || Number(parts[2]) >= blocks.length || !condition) {
      throw new Refusal(line, `expected block ${blocks.length}, in a block of a lower number`);
    }
    blocks.push({ number: blocks.length, parent: Number(parts[2]), condition, polarity: Number(parts[4]), line });
  }

  const instructions = [];
  while (instructions.length < total) {
    instructions.push(readInstruction(reader, instructions.length, blocks));
  }
  const outputLine = reader.number;
  const output = reader.take("# send (\\S+) port (\\S+)", "the output");
  const send = readValue(output[1], total);
  const port = readValue(output[2], total);
  if (!send || !port) {
    throw new Refusal(outputLine, "expected the output, of values of the instructions");
  }
  const writes = [];
  while (!reader.ended && reader.lines[reader.place].startsWith("# write ")) {
    const line = reader.number;
    const parts = reader.take("# write (\\S+) (\\S+)", "a field that is written");
    const value = readValue(parts[2], total);
    if (!FIELD_WIDTHS.has(parts[1]) || !value) {
      throw new Refusal(line, "expected a field and its value");
    }
    writes.push({ field: parts[1], value, line });
  }
  readParts(reader, total).forEach((part, number) => Object.assign(instructions[number], part));
  return {
    kind: "answer", told: counts, countsLine, blocks, instructions, send, port, outputLine, writes, lines: reader.lines,
  };
}

const EVENT = "([1-9][0-9]{0,9})";
const VERDICT = "(drop|send (0|[1-9][0-9]{0,2}) (-|(?:[0-9a-f]{2})+))";
const PACKET_FORMS = new RegExp(
  `^packet ${NUMBER} (?:(up|pass) admitted ${EVENT}|(slow|fast) admitted ${EVENT} decided ${EVENT} version ${NUMBER} ` +
  `(?:(held)|released ${EVENT} ${VERDICT}))$`);

function readPacket(reader, number) {
  const line = reader.number;
  const wanted = `packet ${number}`;
  const parts = reader.take(PACKET_FORMS, `${wanted}, in one of its forms`);
  if (Number(parts[1]) !== number || (parts[4] === "fast" && parts[8])) {
    throw new Refusal(line, `expected ${wanted}, in one of its forms`);
  }
  const packet = { number, line, way: parts[2] || parts[4], admitted: Number(parts[3] || parts[5]) };
  if (packet.way === "up" || packet.way === "pass") {
    return packet;
  }
  packet.decided = Number(parts[6]);
  packet.version = Number(parts[7]);
  if (parts[8]) {
    return packet;
  }
  packet.released = Number(parts[9]);
  packet.port = parts[11] === undefined ? null : Number(parts[11]);
  packet.hex = parts[12] === "-" ? "" : parts[12] || "";
  packet.bytes = packet.hex.length / 2;
  const inTurn = packet.admitted <= packet.decided && packet.decided <= packet.released;
  if (!inTurn || packet.port > 255) {
    throw new Refusal(line, `expected ${wanted}, with events in order`);
  }
  return packet;
}

function readOrder(reader, packets) {
  const line = reader.number;
  const words = reader.take("order (.+)", "the order")[1].split(" ");
  const order = words.length === 1 && words[0] === "-" ? [] : words.map(Number);
  const decided = packets.filter((packet) => packet.decided);
  const known = order.every((number) => packets[number] && packets[number].decided);
  if (!known || new Set(order).size !== order.length || order.length !== decided.length) {
    throw new Refusal(line, "the order has to name each decided packet once, and no other packet");
  }
  return { order, orderLine: line };
}

// The objects of one kind, `object` or `switch`, each with its rows.
function readObjects(reader, word) {
  const parts = [];
  for (let head = reader.match(`${word} ${NAME} ${NUMBER}`); head; head = reader.match(`${word} ${NAME} ${NUMBER}`)) {
    const part = { name: head[1], rows: [] };
    while (part.rows.length < Number(head[2])) {
      const line = reader.number;
      const row = reader.take(`((?:${NUMBER} )*)->((?: ${NUMBER})+)`, `row ${part.rows.length + 1} of ${head[2]}`);
      part.rows.push({ key: row[1].trim(), values: row[3].trim(), line });
    }
    parts.push(part);
  }
  return parts;
}

// The lines of the four links, which stand after a report of `lossy` alone.
function readLinks(reader) {
  const links = [];
  for (const name of LINK_NAMES) {
    const pattern = `link ${name} items ${NUMBER} sent ${NUMBER} delivered ${NUMBER} known ${NUMBER}`;
    const told = reader.match(pattern) || (links.length > 0 ? reader.refuse(`the line of the link ${name}`) : null);
    if (!told) {
      break;
    }
    const [items, sent, delivered, known] = told.slice(1).map(Number);
    links.push({ name, items, sent, delivered, known });
  }
  return links;
}

// The report of a replay.
function readReport(text) {
  const reader = new LineReader(text, isSkipped);
  reader.take("report 1", "`report 1`");
  const packetsLine = reader.number;
  const told = reader.take(
    `packets ${NUMBER} admitted ${NUMBER} decided ${NUMBER} released ${NUMBER}`, "the numbers of packets");
  const [total, admitted, decided, released] = told.slice(1).map(Number);
  const events = reader.take(`events ${NUMBER} idle ${NUMBER}`, "the numbers of events");
  const versionLine = reader.number;
  const versions = reader.take(`version ${NUMBER} visible ${NUMBER}`, "the versions");
  const drained = reader.take("drained (yes|no)", "`drained yes` or `drained no`")[1] === "yes";
  const packets = [];
  while (packets.length < admitted) {
    packets.push(readPacket(reader, packets.length));
  }
  const order = readOrder(reader, packets);
  const objects = readObjects(reader, "object");
  const tables = readObjects(reader, "switch");
  reader.take("end", "`end`");
  const links = readLinks(reader);
  reader.end();
  return {
    total, admitted, decided, released, drained, packets, objects, tables, links, packetsLine, versionLine, ...order,
    events: Number(events[1]), idle: Number(events[2]), version: Number(versions[1]), visible: Number(versions[2]),
    lines: reader.lines,
  };
}

// The answer of a run: the verdict of each packet, and the rows at the end.
function readRun(text) {
  const reader = new LineReader(text, isSkipped);
  const packets = [];
  for (let line = reader.number, parts = reader.match(`packet ${NUMBER} ${VERDICT}`); parts;
    line = reader.number, parts = reader.match(`packet ${NUMBER} ${VERDICT}`)) {
    const port = parts[3] === undefined ? null : Number(parts[3]);
    if (Number(parts[1]) !== packets.length || port > 255) {
      throw new Refusal(line, `expected packet ${packets.length}, with its verdict`);
    }
    const hex = port === null || parts[4] === "-" ? "" : parts[4];
    packets.push({ number: packets.length, line, port, hex, bytes: hex.length / 2 });
  }
  const objects = readObjects(reader, "object");
  reader.take("end", "a packet, an object or `end`");
  reader.end();
  return { packets, objects, tables: [], lines: reader.lines };
}

const LINK_NAMES = ["up", "down", "ctl", "ack"];

// A schedule: the letter, item and line of each event, whether it ends with `drain`, and whether it is fine, that is
// whether each stage of a pass is an event of its own. `linked` says whether it is one over links: then some of its
// lines are no events but say what becomes of datagrams, and these have the link's name too.
const EVENT_FORMS = new RegExp(
  `^(?:([acwk])|([uhds]) ${NUMBER}|(drain)|([xyz]) (${LINK_NAMES.join("|")}) ${NUMBER})$`);

function readSchedule(text) {
  const reader = new LineReader(text, isSkipped);
  const fineLine = reader.number;
  const fine = reader.match("fine") !== null;
  const events = [];
  let [drain, linked, alone] = [false, false, fine ? { line: fineLine, word: "`fine`" } : null];
  while (!reader.ended) {
    const line = reader.number;
    const parts = reader.take(EVENT_FORMS, "an event");
    if (drain) {
      throw new Refusal(line, "nothing may stand after `drain`");
    }
    const letter = parts[1] || parts[2] || parts[5];
    drain = parts[4] !== undefined;
    linked = linked || parts[5] !== undefined;
    alone = drain || letter === "s" ? { line, word: drain ? "`drain`" : "`s`" } : alone;
    if (!drain) {
      events.push({ letter, item: Number(parts[3] || parts[7] || 0), link: parts[6] || null, line });
    }
  }
  if (linked && alone) {
    throw new Refusal(alone.line, `a schedule over links has no ${alone.word}`);
  }
  return { fine, events, drain, linked, lines: reader.lines };
}

// The trace: the port, the number of bytes and the line of each packet.
function readTrace(text) {
  const reader = new LineReader(text, isSkipped);
  const packets = [];
  while (!reader.ended) {
    const line = reader.number;
    const parts = reader.take(`${NUMBER} (-|(?:[0-9a-fA-F]{2})+)`, "a port and the bytes of a packet");
    if (Number(parts[1]) > 255) {
      throw new Refusal(line, "expected a port from 0 to 255");
    }
    const hex = parts[2] === "-" ? "" : parts[2];
    packets.push({ port: Number(parts[1]), hex, bytes: hex.length / 2, line });
  }
  return { packets, lines: reader.lines };
}

// The limits, where each stands on a line of its own.
function readLimits(text) {
  const reader = new LineReader(text, (line) => /^\s*(#.*)?$/.test(line));
  const limits = new Map();
  while (!reader.ended) {
    const line = reader.number;
    const pattern = `\\s*(${LIMIT_NAMES.join("|")})\\s*=\\s*([0-9][0-9_]*)\\s*(?:#.*)?`;
    const parts = reader.take(pattern, "one of the four limits");
    if (limits.has(parts[1])) {
      throw new Refusal(line, `${parts[1]} stands here again`);
    }
    limits.set(parts[1], Number(parts[2].replaceAll("_", "")));
  }
  if (limits.size < LIMIT_NAMES.length) {
    reader.refuse(LIMIT_NAMES.find((name) => !limits.has(name)));
  }
  return { limits, lines: reader.lines };
}

// The kinds of texts, with their readers and what they are called on the page.
const TEXT_KINDS = new Map([
  ["answer", { title: "answer of compile", read: readAnswer }],
  ["split", { title: "split", read: readSplit }],
  ["limits", { title: "limits", read: readLimits }],
  ["source", { title: "source", read: (text) => readSource(text) }],
  ["report", { title: "report", read: readReport }],
  ["run", { title: "answer of run", read: readRun }],
  ["schedule", { title: "schedule", read: readSchedule }],
  ["trace", { title: "trace", read: readTrace }],
  ["nothing", { title: "says nothing", read: (text) => ({ lines: linesOf(text) }) }],
]);

// A text of one of these kinds takes the place of one of the other.
const SPLIT_KINDS = ["answer", "split"];

// Which kind of text it is, by its first line that isn't skipped; a file `.gal` is a source whatever it holds.
function kindOf(text, name = "") {
  const lines = linesOf(text);
  if (name.endsWith(".gal")) {
    return "source";
  }
  if (lines.some((line) => line.startsWith("# instructions ")) && lines.some((line) => line.startsWith("split "))) {
    return "answer";
  }
  const place = lines.findIndex((line) => !/^\s*(#.*)?$/.test(line));
  if (place < 0) {
    return "nothing";
  }
  const line = lines[place];
  if (line.startsWith("report")) {
    return "report";
  }
  if (line.startsWith("split ")) {
    return "split";
  }
  if (/^(packet |object |end$)/.test(line)) {
    return "run";
  }
  if (/^(a|c|w|k|fine|drain|[uhdsxyz] .*)$/.test(line)) {
    return "schedule";
  }
  if (/^[0-9]+ /.test(line)) {
    return "trace";
  }
  if (/^\s*[a-z_]+\s*=/.test(line)) {
    return "limits";
  }
  if (/\bprocess\b/.test(text) || /^\s*(\/\/|(table|map|vector|int)\b)/.test(line)) {
    return "source";
  }
  throw new Refusal(place + 1, "the page doesn't know this text: it begins like nothing that `compile`, `run` or "
    + "`replay` reads or prints");
}
