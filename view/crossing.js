"use strict";

// What can be computed of a split from the answer of compile: the values that cross, their widths, and the tables.

const atValue = (answer, value) => answer.instructions[value.instruction];
const isWrite = (instruction) => instruction.kind === "put" || instruction.kind === "del";

// The conditions of the block and of all blocks above it.
function guardsOf(answer, block) {
  const guards = [];
  for (let at = answer.blocks[block]; at.parent !== null; at = answer.blocks[at.parent]) {
    guards.push(at);
  }
  return guards;
}

class ValueSet {
  constructor() {
    this.values = new Map();
  }

  add(value) {
    this.values.set(valueName(value), value);
  }

  inOrder() {
    return [...this.values.values()].sort((one, other) =>
      one.instruction - other.instruction || one.result - other.result);
  }
}

// The values that go up to the server and down from it, in order.
function crossingsOf(answer) {
  const isPost = (value) => atValue(answer, value).slow === "post";
  const serverWrites = answer.writes.filter((write) => !isPost(write.value));
  const serverFields = new Set(serverWrites.map((write) => write.field));
  const down = new ValueSet();
  [answer.send, answer.port].filter((value) => !isPost(value)).forEach((value) => down.add(value));
  for (const instruction of answer.instructions.filter(({ slow }) => slow === "post")) {
    for (const value of instruction.operands) {
      const giver = atValue(answer, value);
      const isHad = giver.slow === "post" || giver.kind === "const"
        || (giver.kind === "field" && !serverFields.has(giver.field));
      if (!isHad) {
        down.add(value);
      }
    }
  }
  const up = new ValueSet();
  const goUp = (value) => {
    const giver = atValue(answer, value);
    if (giver.slow === "carried" && giver.kind !== "const" && giver.kind !== "field") {
      up.add(value);
    }
  };
  for (const instruction of answer.instructions) {
    if (instruction.slow === "server") {
      instruction.operands.forEach(goUp);
    }
    if (isWrite(instruction)) {
      guardsOf(answer, instruction.block).forEach((block) => goUp(block.condition));
    }
  }
  down.inOrder().forEach(goUp);
  serverWrites.forEach((write) => goUp(write.value));
  return { up: up.inOrder(), down: down.inOrder() };
}

// Sets of things that are alike in something.
class Groups {
  constructor() {
    this.above = new Map();
  }

  top(name) {
    let at = name;
    while (this.above.has(at)) {
      at = this.above.get(at);
    }
    return at;
  }

  join(one, other) {
    const [from, to] = [this.top(one), this.top(other)];
    if (from !== to) {
      this.above.set(from, to);
    }
  }
}

// Sets of things that have one width, which is known or not.
class Widths extends Groups {
  constructor() {
    super();
    this.known = new Map();
  }

  join(one, other) {
    const [from, to] = [this.top(one), this.top(other)];
    super.join(one, other);
    if (from !== to && this.known.has(from)) {
      this.known.set(to, this.known.get(from));
    }
  }

  set(name, width) {
    this.known.set(this.top(name), width);
  }

  of(name) {
    return this.known.get(this.top(name));
  }
}

const COMPARISONS = new Set(["eq", "ne", "lt", "le"]);
const isAccess = ({ kind }) => kind === "look" || kind === "put" || kind === "del";

// How many keys each object has, as far as the source or a look or a del says it.
function keyCountsOf(program, source) {
  const counts = new Map();
  for (const { kind, object, operands } of program.instructions) {
    if (kind === "look" || kind === "del") {
      counts.set(object, operands.length);
    }
  }
  for (const [name, object] of source ? source.objects : []) {
    counts.set(name, object.keys.length);
  }
  return counts;
}

// Calls `join` for each two things of an instruction that stand for the same: operands and the keys and values of an
// object, what is compared, and what a select chooses from.
function joinAlike(program, { kind, number, object, operands }, keyCounts, join) {
  const names = operands.map(valueName);
  if (isAccess({ kind })) {
    const keys = keyCounts.get(object);
    const partOf = (place) => (place < keys ? `key ${place}` : `value ${place - keys}`);
    (keys === undefined ? [] : names).forEach((name, place) => join(name, `${object} ${partOf(place)}`));
  } else if (COMPARISONS.has(kind)) {
    join(names[0], names[1]);
  } else if (kind === "select") {
    join(names[1], `${number}.0`);
    join(names[2], `${number}.0`);
  }
  operands.filter((value) => value.result > 0 && atValue(program, value).kind === "look").forEach((value) =>
    join(valueName(value), `${atValue(program, value).object} value ${value.result - 1}`));
}

// The widths of values as far as operators, fields, constants and the declarations of a source say them.
function widthsOf(answer, source) {
  const widths = new Widths();
  const keyCounts = keyCountsOf(answer, source);
  for (const [name, object] of source ? source.objects : []) {
    object.keys.forEach((width, place) => widths.set(`${name} key ${place}`, width));
    object.values.forEach((width, place) => widths.set(`${name} value ${place}`, width));
  }
  for (const instruction of answer.instructions) {
    const { kind, number, width } = instruction;
    const operands = instruction.operands.map(valueName);
    widths.set(`${number}.0`, isAccess(instruction) || COMPARISONS.has(kind) ? 1 : width);
    joinAlike(answer, instruction, keyCounts, (one, other) => widths.join(one, other));
    if (kind === "byte") {
      widths.set(operands[0], 16);
    } else if (kind === "select") {
      widths.set(operands[0], 1);
    } else if (kind !== "cast" && !isAccess(instruction) && !COMPARISONS.has(kind)) {
      operands.forEach((operand) => widths.join(operand, `${number}.0`));
    }
  }
  answer.writes.forEach(({ field, value }) => widths.set(valueName(value), FIELD_WIDTHS.get(field)));
  widths.set(valueName(answer.send), 1);
  widths.set(valueName(answer.port), 8);
  return widths;
}

// The sum of the widths of the values, or null where one of them isn't known.
function bitsOf(values, widths) {
  const each = values.map((value) => widths.of(valueName(value)));
  return each.includes(undefined) ? null : each.reduce((sum, width) => sum + width, 0);
}

// Each object that is looked up or written, with its instructions and with what is known of its kind.
function tablesOf(answer, source) {
  const tables = new Map();
  for (const instruction of answer.instructions.filter(({ object }) => object)) {
    if (!tables.has(instruction.object)) {
      tables.set(instruction.object, { name: instruction.object, looks: [], writes: [] });
    }
    const table = tables.get(instruction.object);
    (instruction.kind === "look" ? table.looks : table.writes).push(instruction);
  }
  for (const table of tables.values()) {
    const declared = source && source.objects.get(table.name);
    const isConstant = declared ? declared.kind === "table" : table.looks.some(({ slow }) => slow !== "server");
    const isChanged = declared ? declared.kind !== "table" : table.writes.length > 0;
    table.declared = declared;
    table.onSwitch = table.looks.some(({ before, after }) => before !== null || after !== null);
    table.isReplicated = isChanged && table.looks.some(({ before }) => before !== null);
    table.role = isConstant ? "constant table" : table.isReplicated ? "replicated" : isChanged ? "the server's" : "";
  }
  return [...tables.values()];
}

const SYMBOLS = new Map([
  ["add", "+"], ["sub", "-"], ["mul", "*"], ["div", "/"], ["rem", "%"], ["and", "&"], ["or", "|"], ["xor", "^"],
  ["eq", "=="], ["ne", "!="], ["lt", "<"], ["le", "<="], ["shl", "<<"], ["shr", ">>"],
]);

// The value as an expression over fields and tables, down to some depth; below it stand the numbers of values.
function expressionOf(answer, value, depth) {
  const { kind, field, object, operands, shift, width } = atValue(answer, value);
  const part = (operand) => expressionOf(answer, operand, depth - 1);
  const isInfix = (operand) => SYMBOLS.has(atValue(answer, operand).kind);
  const bracketed = (operand) => (isInfix(operand) && depth > 1 ? `(${part(operand)})` : part(operand));
  if (kind === "const") {
    return constantText(answer, value);
  }
  if (kind === "field") {
    return field;
  }
  if (kind === "look") {
    return value.result === 0 ? `${object} has it` : `${object} value ${value.result}`;
  }
  if (isWrite({ kind })) {
    return kind === "put" ? `${object} took it` : `${object} had it`;
  }
  if (depth === 0) {
    return valueName(value);
  }
  if (shift !== undefined) {
    return `${bracketed(operands[0])} ${SYMBOLS.get(kind)} ${shift}`;
  }
  if (SYMBOLS.has(kind)) {
    return `${bracketed(operands[0])} ${SYMBOLS.get(kind)} ${bracketed(operands[1])}`;
  }
  const first = kind === "cast" ? [String(width)] : [];
  return kind === "not" ? `~${bracketed(operands[0])}` : `${kind}(${[...first, ...operands.map(part)].join(", ")})`;
}

const YES_AND_NO = { look: ["has it", "lacks it"], put: ["took it", "refused it"], del: ["had it", "lacked it"] };

// What makes the block live where the blocks above it are, as an expression. What only turns a bit is done away with.
function conditionOf(answer, block) {
  let value = block.condition;
  let wanted = block.polarity;
  const bitOf = ({ kind, width, constant }) => (kind === "const" && width === 1 ? Number(constant) : null);
  for (;;) {
    const { kind, operands } = atValue(answer, value);
    const bit = kind === "eq" || kind === "ne" ? bitOf(atValue(answer, operands[1])) : null;
    if (kind !== "not" && bit === null) {
      break;
    }
    value = operands[0];
    wanted = kind === "not" || (bit === 0) === (kind === "eq") ? 1 - wanted : wanted;
  }
  const { kind, object, operands } = atValue(answer, value);
  if (YES_AND_NO[kind] && value.result === 0) {
    return `${object} ${YES_AND_NO[kind][1 - wanted]}`;
  }
  if (wanted === 1) {
    return expressionOf(answer, value, 3);
  }
  if (kind !== "eq" && kind !== "ne") {
    return `not ${SYMBOLS.has(kind) ? `(${expressionOf(answer, value, 3)})` : expressionOf(answer, value, 3)}`;
  }
  const [left, right] = operands.map((operand) => expressionOf(answer, operand, 2));
  return `${left} ${kind === "eq" ? "!=" : "=="} ${right}`;
}
