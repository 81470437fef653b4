"use strict";

// Makes the flat program of a source, as docs/flat.md says: the blocks, the instructions and the output that `compile`
// lists. Each instruction knows the statement that it comes of, and whether it chooses between two values that may
// stand for the same thing from there on.

const MOST_INSTRUCTIONS = 4096;

const ZERO = { instruction: 0, result: 0 };
const ONE = { instruction: 1, result: 0 };
const ZERO_PORT = { instruction: 2, result: 0 };

const isSameValue = (one, other) => one.instruction === other.instruction && one.result === other.result;

// Which values stand for what at some place: for each local in scope and each field; for whether the packet leaves, and
// by which port. `ended` is "no", "yes", or a value that says whether the run has ended.
class Standing {
  constructor(locals, fields, send, port, ended) {
    Object.assign(this, { locals, fields, send, port, ended });
  }

  copy(ended) {
    return new Standing([...this.locals], new Map(this.fields), this.send, this.port, ended || this.ended);
  }
}

class TooManyInstructions extends Error {}

class Flattening {
  constructor(source) {
    this.source = source;
    this.blocks = [{ number: 0, parent: null }];
    this.instructions = [];
    this.statement = null;
    this.make();
  }

  make() {
    const root = { block: 0, loop: false };
    this.give(root, { kind: "const", width: 1, constant: "0" });
    this.give(root, { kind: "const", width: 1, constant: "1" });
    this.give(root, { kind: "const", width: 8, constant: "0" });
    const named = [...FIELD_WIDTHS].filter(([field]) => this.source.fields.has(field));
    const arrived = new Map(named.map(([field, width]) => [field, this.give(root, { kind: "field", field, width })]));
    const start = new Standing([], arrived, ZERO, ZERO_PORT, "no");
    const end = this.body(root, this.source.body, 0, start.copy());
    Object.assign(this, { send: end.send, port: end.port });
    this.writes = [...arrived].filter(([field, value]) => !isSameValue(value, end.fields.get(field)))
      .map(([field]) => ({ field, value: end.fields.get(field) }));
  }

  // One more instruction; returns its first result.
  give({ block, loop }, parts) {
    const number = this.instructions.length;
    if (number === MOST_INSTRUCTIONS) {
      throw new TooManyInstructions();
    }
    this.instructions.push({ operands: [], statement: this.statement, chooses: false, ...parts, number, block, loop });
    return { instruction: number, result: 0 };
  }

  // A place in a new block, which is live where the value is so.
  open({ block, loop }, condition, polarity) {
    this.blocks.push({ number: this.blocks.length, parent: block, condition, polarity });
    return { block: this.blocks.length - 1, loop };
  }

  // Does something whose instructions come of the statement.
  of(statement, go) {
    const before = this.statement;
    this.statement = statement;
    const given = go();
    this.statement = before;
    return given;
  }

  value(place, standing, expression) {
    const { kind, local, field, operands } = expression;
    if (kind === "local") {
      return standing.locals[local];
    }
    if (kind === "field") {
      return standing.fields.get(field);
    }
    return this.give(place, { ...expression, operands: this.values(place, standing, operands) });
  }

  values(place, standing, expressions) {
    return expressions.map((expression) => this.value(place, standing, expression));
  }

  choice(place, by, width, one, other) {
    return isSameValue(one, other) ? one
      : this.give(place, { kind: "select", width, operands: [by, one, other], chooses: true });
  }

  // What stands after two ways: the first where the value is 1.
  join(place, by, first, second) {
    const locals = [];
    this.source.locals.forEach(({ width }, local) => {
      if (first.locals[local] && second.locals[local]) {
        locals[local] = this.choice(place, by, width, first.locals[local], second.locals[local]);
      }
    });
    const fields = new Map([...first.fields].map(([field, value]) =>
      [field, this.choice(place, by, FIELD_WIDTHS.get(field), value, second.fields.get(field))]));
    const send = this.choice(place, by, 1, first.send, second.send);
    const port = this.choice(place, by, 8, first.port, second.port);
    return new Standing(locals, fields, send, port, this.joinEnded(place, by, first.ended, second.ended));
  }

  joinEnded(place, by, first, second) {
    if (first === second && typeof first === "string") {
      return first;
    }
    if (first === "yes" && second === "no") {
      return by;
    }
    const valueOf = (ended) => ({ no: ZERO, yes: ONE }[ended] || ended);
    return this.give(place, {
      kind: "select", width: 1, operands: [by, valueOf(first), valueOf(second)], chooses: true,
    });
  }

  // What follows a statement that may have ended the run stands in a block that is live where it hasn't.
  follow(place, standing, last, go) {
    const before = standing.copy("yes");
    const by = standing.ended;
    const after = go(this.open(place, by, 0), standing.copy("no"));
    return this.of(last, () => this.join(place, by, before, after));
  }

  body(place, statements, from, standing) {
    let now = standing;
    for (let at = from; at < statements.length && now.ended !== "yes"; at += 1) {
      if (now.ended !== "no") {
        return this.follow(place, now, statements[at - 1], (inside, next) => this.body(inside, statements, at, next));
      }
      now = this.of(statements[at], () => this.step(place, statements[at], now));
    }
    return now;
  }

  step(place, statement, standing) {
    const { kind, local, locals, field, value, object, keys, values } = statement;
    if (kind === "if") {
      return this.branch(place, statement, standing);
    }
    if (kind === "repeat") {
      return this.turns({ ...place, loop: true }, statement, 0, standing);
    }
    if (kind === "send" || kind === "drop") {
      const isSent = kind === "send";
      standing.port = isSent ? this.value(place, standing, statement.port) : ZERO_PORT;
      Object.assign(standing, { send: isSent ? ONE : ZERO, ended: "yes" });
    } else if (field) {
      standing.fields.set(field, this.value(place, standing, value));
    } else if (value) {
      standing.locals[local] = this.value(place, standing, value);
    } else {
      const operands = this.values(place, standing, keys);
      operands.push(...this.values(place, standing, values || []));
      const { instruction } = this.give(place, { kind, object, operands, width: null });
      (locals || [local]).forEach((one, result) => { standing.locals[one] = { instruction, result }; });
    }
    return standing;
  }

  branch(place, { condition, first, second }, standing) {
    const by = this.value(place, standing, condition);
    const one = this.body(this.open(place, by, 1), first, 0, standing.copy());
    const other = second.length === 0 ? standing : this.body(this.open(place, by, 0), second, 0, standing.copy());
    return this.join(place, by, one, other);
  }

  turns(place, statement, from, standing) {
    let now = standing;
    for (let turn = from; turn < statement.turns && now.ended !== "yes"; turn += 1) {
      if (now.ended !== "no") {
        return this.follow(place, now, statement, (inside, next) => this.turns(inside, statement, turn, next));
      }
      const before = [...now.locals];
      now.locals[statement.local] = this.give(place, { kind: "const", width: 32, constant: String(turn) });
      now = this.body(place, statement.body, 0, now);
      now.locals = now.locals.map((value, local) => (before[local] ? value : undefined));
    }
    return now;
  }
}

// The line of an instruction or of a block in the listing.
function listingOf({ number, block, kind, width, constant, field, object, operands, shift, loop }) {
  const values = operands.map((value) => ` ${valueName(value)}`).join("");
  const parts = kind === "const" ? ` ${width} ${constant}` : kind === "field" ? ` ${field}`
    : object ? ` ${object}${values}` : kind === "byte" ? values
    : ` ${width}${values}${shift === undefined ? "" : ` ${shift}`}`;
  return `# ${number} b${block} ${kind}${parts}${loop ? " loop" : ""}`;
}

const blockLine = ({ number, parent, condition, polarity }) =>
  `# block ${number} in ${parent} when ${valueName(condition)} is ${polarity}`;

// The whole listing of a flat program, but for the two lines of counts.
function linesOfProgram({ blocks, instructions, send, port, writes }) {
  return [
    ...blocks.slice(1).map(blockLine), ...instructions.map(listingOf),
    `# send ${valueName(send)} port ${valueName(port)}`,
    ...writes.map(({ field, value }) => `# write ${field} ${valueName(value)}`),
  ];
}

// The flat program of a source, or null where it has too many instructions.
function flatOf(source) {
  try {
    return new Flattening(source);
  } catch (failure) {
    if (failure instanceof TooManyInstructions || failure instanceof RangeError) {
      return null;
    }
    throw failure;
  }
}
