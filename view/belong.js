"use strict";

// Whether texts belong together: a source and its split, a report and its trace, and so on. Each test returns a text
// that says what speaks against it, or null.

const namesOf = (names) => [...names].map((name) => `\`${name}\``).join(", ");

function sourceAndAnswer({ source, answer }) {
  if (answer.kind === "split") {
    return null;
  }
  if (!source.flat) {
    return `the source becomes more than ${grouped(MOST_INSTRUCTIONS)} instructions`;
  }
  const [have, told] = [source.flat.instructions.length, answer.instructions.length];
  if (have !== told) {
    return `the source becomes ${counted(have, "instruction")}, and the answer of compile has ${grouped(told)}`;
  }
  const foreign = [...new Set(answer.instructions.map(({ object }) => object))]
    .filter((object) => object && !source.objects.has(object));
  if (foreign.length > 0) {
    return `the source declares no object ${namesOf(foreign)}, which the answer of compile names`;
  }
  const [lines, others] = [linesOfProgram(source.flat), linesOfProgram(answer)];
  const place = lines.findIndex((line, at) => line !== others[at]);
  if (place >= 0 || lines.length !== others.length) {
    const at = place >= 0 ? place : lines.length;
    return `the source becomes \`${lines[at] || "nothing more"}\`, where the answer of compile has \`${
      others[at] || "nothing more"}\``;
  }
  return null;
}

function sourceAndSplit({ source, split }) {
  if (!source.flat) {
    return `the source becomes more than ${grouped(MOST_INSTRUCTIONS)} instructions`;
  }
  const [have, told] = [source.flat.instructions.length, split.parts.length];
  return have === told ? null
    : `the source becomes ${counted(have, "instruction")}, and the split has a line for ${grouped(told)}`;
}

// Whether rows can be those of the objects that a source declares: the server's, and those that the switch shows.
function sourceAndRows(source, { objects: parts, tables }, title) {
  const kept = [...source.objects].filter(([, { kind }]) => kind !== "table");
  const [wanted, have] = [kept.map(([name]) => name), parts.map(({ name }) => name)];
  if (wanted.join(" ") !== have.join(" ")) {
    return `the source has the objects ${namesOf(wanted) || "none"}, and the ${title} has ${
      namesOf(have) || "none"}`;
  }
  const foreign = tables.map(({ name }) => name).filter((name) => !wanted.includes(name));
  if (foreign.length > 0) {
    return `the source has no object ${namesOf(foreign)}, of which the ${title} has the rows that the switch shows`;
  }
  for (const { name, rows } of [...parts, ...tables]) {
    const { kind, keys, values, rows: size } = source.objects.get(name);
    if (kind === "map" ? rows.length > size : rows.length !== size) {
      return `\`${name}\` has ${counted(rows.length, "row")} in the ${title}, and the source gives it ${grouped(size)}`;
    }
    const fits = (numbers, widths) => numbers.length === widths.length
      && numbers.every((number, place) => BigInt(number) < 2n ** BigInt(widths[place]));
    const other = rows.find((row) => !fits(numbersOf(row.key), keys) || !fits(numbersOf(row.values), values));
    if (other) {
      return `line ${other.line} of the ${title} isn't a row of \`${name}\` as the source declares it`;
    }
  }
  return null;
}

const numbersOf = (text) => (text === "" ? [] : text.split(" "));

// Whether packets left with as many bytes as they arrived with.
function traceAndPackets(trace, packets, total, title) {
  if (trace.packets.length !== total) {
    return `the trace has ${counted(trace.packets.length, "packet")}, and the ${title} has ${grouped(total)}`;
  }
  const isSent = ({ port }) => port !== undefined && port !== null;
  const isOther = (packet) => isSent(packet) && packet.bytes !== trace.packets[packet.number].bytes;
  const other = packets.slice(0, total).find(isOther);
  return other ? `packet ${other.number} has ${counted(trace.packets[other.number].bytes, "byte")} in the trace, and ${
    grouped(other.bytes)} in the ${title}` : null;
}

// Which blocks hold an instruction that isn't in preprocessing.
const blocksOutside = (answer) =>
  new Set(answer.instructions.filter(({ before }) => before === null).map(({ block }) => block));

function reportAndAnswer({ report, answer, source }) {
  const tables = tablesOf(answer, source);
  const looked = tables.filter(({ looks }) => looks.some(({ before }) => before !== null)).map(({ name }) => name);
  const kept = report.tables.map(({ name }) => name);
  const foreign = kept.filter((name) => !looked.includes(name));
  if (foreign.length > 0) {
    return `the switch keeps ${namesOf(foreign)} in the report, and not by the split`;
  }
  const missing = tables.filter(({ isReplicated }) => isReplicated).map(({ name }) => name)
    .filter((name) => !kept.includes(name));
  if (missing.length > 0) {
    return `the switch keeps ${namesOf(missing)} by the split, and not in the report`;
  }
  const rows = new Set(report.objects.map(({ name }) => name));
  const unknown = tables.filter(({ name, writes }) => writes.length > 0 && !rows.has(name)).map(({ name }) => name);
  if (unknown.length > 0) {
    return `the split changes ${namesOf(unknown)}, of which the report has no rows`;
  }
  if (mostChangesOf(answer, report) === null) {
    return `the split makes no change that the switch keeps, and the report has version ${
      grouped(report.version)}`;
  }
  const outside = blocksOutside(answer);
  const first = (way) => report.packets.find((packet) => packet.way === way);
  const [fast, slow] = [first("fast"), first("slow") || first("up")];
  if (outside.has(0) && fast) {
    return `by the split every packet goes up to the server, and packet ${fast.number} is fast`;
  }
  return outside.size === 0 && slow ? `by the split every packet is fast, and packet ${slow.number} isn't` : null;
}

function reportAndRun({ report, run }) {
  if (report.total !== run.packets.length) {
    return `the report has ${counted(report.total, "packet")}, and the answer of run ${
      grouped(run.packets.length)}`;
  }
  const [one, other] = [report, run].map(({ objects }) => objects.map(({ name }) => name).join(" "));
  return one === other ? null : "they have the rows of other objects";
}

// Which lines of a schedule over links come through is found where its run is derived.
function scheduleAndReport({ schedule, report }) {
  if (report.links.length === 0) {
    return schedule.linked ? "the schedule is one over links, and the report isn't one of `lossy`"
      : strangenessOf(report, schedule);
  }
  const other = schedule.drain ? "drain" : schedule.fine ? "fine" : schedule.events.some(({ letter }) => letter === "s")
    ? "s" : null;
  return other ? `the report is one of \`lossy\`, and a schedule over links has no \`${other}\`` : null;
}

// Each two kinds of texts, and what speaks against their belonging together.
const PAIRS = [
  [["source", "answer"], sourceAndAnswer],
  [["source", "split"], sourceAndSplit],
  [["source", "report"], ({ source, report }) => sourceAndRows(source, report, "report")],
  [["source", "run"], ({ source, run }) => sourceAndRows(source, run, "answer of run")],
  [["answer", "report"], reportAndAnswer],
  [["trace", "report"], ({ trace, report }) => traceAndPackets(trace, report.packets, report.total, "report")],
  [["trace", "run"], ({ trace, run }) => traceAndPackets(trace, run.packets, run.packets.length, "answer of run")],
  [["run", "report"], reportAndRun],
  [["schedule", "report"], scheduleAndReport],
];

// What speaks against the texts belonging together: [{ kinds, why }].
function strangersOf(read) {
  const texts = Object.fromEntries(read);
  const found = [];
  for (const [kinds, test] of PAIRS) {
    // Where the source isn't that of the split, its widths and objects would make further tests meaningless.
    const isTold = found.some((other) => other.kinds.every((kind) => kinds.includes(kind)));
    const why = kinds.every((kind) => read.has(kind)) && !isTold ? test(texts) : null;
    if (why) {
      found.push({ kinds, why });
    }
  }
  return found;
}
