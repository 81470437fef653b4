"use strict";

// Which rule a split breaks, and what it takes of the switch, as docs/split.md says.

// The rules of docs/split.md in words.
const SPLIT_RULES = new Map([
  [1, "the switch can't do this before the server: it is a `put`, a `del`, a `byte`, a `*`, `/` or `%`, or stands in a "
    + "`repeat`"],
  [2, "the switch does this before the server, and one of its operands isn't done there"],
  [3, "what is carried has to be done on the switch before the server"],
  [4, "what was looked up in a map, a vector or an int can't be carried: the server looks into its own rows"],
  [5, "this is carried, and one of its operands isn't"],
  [6, "the server needs a value here that the switch makes only after it"],
  [7, "the switch can't do this after the server: it does operators there, and looks into tables alone"],
  [8, "a `put` or a `del` is done by the server alone"],
  [9, "a stage has to be above those of the operands in the same pass; constants and fields have stage 0, and nothing "
    + "else has"],
]);

const ONLY_ON_SERVER = new Set(["mul", "div", "rem", "byte", "put", "del"]);

// The rules that an instruction breaks.
function rulesBrokenBy(answer, source, instruction) {
  const { kind, object, operands, before, slow, after, loop, block } = instruction;
  const isOfSwitch = !loop && !ONLY_ON_SERVER.has(kind);
  const givers = operands.map((value) => atValue(answer, value));
  const declared = source && source.objects.get(object);
  const isMutableLook = kind === "look" && (declared ? declared.kind !== "table" : answer.instructions.some((other) =>
    isWrite(other) && other.object === object));
  const isConstant = kind === "const" || kind === "field";
  const isWrongStage = (stage, below) =>
    (isConstant ? stage !== 0 : stage === 0 || below.some((other) => other >= stage));
  const isPost = (giver) => giver.slow === "post";
  const guards = isWrite(instruction) ? guardsOf(answer, block).map((guard) => atValue(answer, guard.condition)) : [];
  const needed = kind === "select" ? givers.slice(0, 1) : givers;
  const [inBefore, inAfter] = [before !== null, slow === "post"];
  return [
    [1, inBefore && !isOfSwitch],
    [2, inBefore && needed.some((giver) => giver.before === null)],
    [3, slow === "carried" && !inBefore],
    [4, slow === "carried" && isMutableLook],
    [5, slow === "carried" && givers.some((giver) => giver.slow !== "carried")],
    [6, (slow === "server" && givers.some(isPost)) || guards.some(isPost)],
    [7, inAfter && (!isOfSwitch || isMutableLook || kind === "field")],
    [8, isWrite(instruction) && (inBefore || slow !== "server")],
    [9, (inBefore && isWrongStage(before, givers.filter((giver) => giver.before !== null).map((giver) => giver.before)))
      || (inAfter && isWrongStage(after, givers.filter(isPost).map((giver) => giver.after)))],
  ].filter(([, isBroken]) => isBroken).map(([rule]) => rule);
}

// The lowest rule that a split breaks, and the first instruction that breaks it; or null where it is legal.
function brokenRuleOf(answer, source) {
  let found = null;
  for (const instruction of answer.instructions) {
    const rule = Math.min(Infinity, ...rulesBrokenBy(answer, source, instruction));
    if (rule < (found ? found.rule : Infinity)) {
      found = { rule, instruction };
    }
  }
  return found;
}

const greatestOf = (numbers) => numbers.reduce((one, other) => Math.max(one, other), 0);

// The bits of all tables on the switch: those of their rows, and those for each row of a write-back table that the
// limits allow; or null where no source declares the objects.
function tableBitsOf(tables) {
  if (tables.some(({ declared }) => !declared)) {
    return null;
  }
  let [rows, changes] = [0, 0];
  for (const { declared, onSwitch, isReplicated } of tables) {
    const bits = sumOf([...declared.keys, ...declared.values]);
    rows += isReplicated || (onSwitch && declared.kind === "table") ? declared.rows * bits : 0;
    changes += isReplicated ? bits + 1 : 0;
  }
  return { rows, changes };
}

// What a split takes, by the names of limits. A number is null where it isn't known: the widths of what crosses and the
// sizes of tables are declared by the source, and the limits say how many rows write-back tables have.
function takenBy(answer, source, limits) {
  const tables = tablesOf(answer, source);
  const { up, down } = crossingsOf(answer);
  const widths = widthsOf(answer, source);
  const [upBits, downBits] = [bitsOf(up, widths), bitsOf(down, widths)];
  const passes = ({ looks }) => sumOf(looks.map(({ before, after }) =>
    (before === null ? 0 : 1) + (after === null ? 0 : 1)));
  const bits = tableBitsOf(tables);
  const staged = limits ? limits.limits.get("writeback") : null;
  return new Map([
    ["accesses", greatestOf(tables.map(passes))],
    ["stages", greatestOf(answer.instructions.map(({ before, after }) => Math.max(before || 0, after || 0)))],
    ["table_bits", bits === null || (staged === null && bits.changes > 0) ? null
      : bits.rows + (staged || 0) * bits.changes],
    ["writeback", greatestOf(tables.filter(({ isReplicated }) => isReplicated).map(({ writes }) => writes.length))],
    ["transfer_bytes", upBits === null || downBits === null ? null : bytesFor(Math.max(upBits, downBits))],
  ]);
}

// Whether the number that line 2 of an answer of compile has can be what its split takes. The bits of tables are those
// of the rows, and some number of rows of write-back tables.
function canBeTold(name, told, taken, tables) {
  const bits = name === "table_bits" && taken === null ? tableBitsOf(tables) : null;
  return bits === null ? taken === null || taken === told
    : told >= bits.rows && (told - bits.rows) % bits.changes === 0;
}

// The answer of compile that goes with a split text, as far as a source says it.
function answerOfSplit({ parts, lines }, { instructions, blocks, send, port, writes }) {
  return {
    kind: "split", told: null, countsLine: null, outputLine: null, blocks, send, port, writes, lines,
    instructions: instructions.map((instruction, number) => ({ ...instruction, line: null, ...parts[number] })),
  };
}
