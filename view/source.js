"use strict";

// Reads a source of the language (docs/language.md) into its declarations and statements, with the place of each. Names
// are resolved here: a local goes by its number, in order of declaration. A text that isn't a source is refused for the
// first cause that docs/language.md lists, at the line and the column of that place.

const KEYWORDS = new Set([
  "table", "map", "vector", "int", "capacity", "length", "process", "let", "look", "put", "del", "if", "else", "repeat",
  "send", "drop", "byte", "cast", "select", "adjust",
]);

const INFIX = new Map([
  ["+", "add"], ["-", "sub"], ["*", "mul"], ["/", "div"], ["%", "rem"], ["&", "and"], ["|", "or"], ["^", "xor"],
  ["==", "eq"], ["!=", "ne"], ["<", "lt"], ["<=", "le"],
]);

const BLANKS = /(?:[ \t\r\n]|\/\/[^\n]*)*/y;
const TOKEN = /[A-Za-z][A-Za-z0-9_.]*|[0-9][A-Za-z0-9_]*|->|==|!=|<=|<<|>>|[()[\]{},;:=+\-*/%&|^~<]/y;
const SOURCE_NUMBER = /^(?:[0-9]+|0x[0-9A-Fa-f]+)$/;

// The sizes of a source. A group of an object is its keys, or its values.
const MOST_BYTES = 262144;
const MOST_BRACKETS = 64;
const MOST_OBJECTS = 64;
const MOST_ENTRIES = 1048576;
const MOST_CHANGES = 64;
const MOST_IN_GROUP = 8;
const MOST_BITS_IN_GROUP = 128;

// The fields that a program can read and not set.
const READ_ONLY = new Set([
  "meta.port", "meta.len", "has.ip", "has.tcp", "has.udp", "eth.type", "ip.version", "ip.ihl", "ip.frag", "ip.proto",
]);

// The rules of docs/language.md in words.
const RULES = new Map([
  [1, "an object of this name was declared before"],
  [2, "a width has to be from 1 to 64 bits"],
  [3, "an object has at most 8 keys and 8 values, and at most 128 bits of either"],
  [4, "a number has to fit its width: in W bits it is below 2^W"],
  [5, "a capacity or a length has to be from 1 to 1,048,576"],
  [6, "a row has to have the numbers and widths that its table declares, and no two rows the same keys"],
  [7, "the name is taken, by an object or by a local that is in scope here"],
  [8, "a name isn't known here: a local is known after its statement, up to the end of its block; an object is used "
    + "with brackets, in `look`, `put` and `del`"],
  [9, "widths don't fit: both sides of an operator or of an assignment have the same width, a condition has 1 bit, a "
    + "port 8 and the index of `byte` 16; `cast(W, x)` changes a width"],
  [10, "this field can be read, but not set"],
  [11, "the keys, the values or the names don't fit the object, in number or in width; a `look` names one local more "
    + "than the object has values, the first for whether the key is there"],
  [12, "a table never changes, and only a map forgets a key"],
  [13, "a shift is by at most 63, a `repeat` has 1 to 64 turns, and none stands within another one"],
  [14, "it can't be reached: the statement before it in its block always ends; or every turn of this `repeat` ends"],
]);

// Where rule 8 is broken these aren't asked.
const ASKED_OF_KNOWN_NAMES = [9, 11, 12];

// The line and the column, both from 1, of a place in a text. A column is a character.
function placeInText(text, at) {
  const start = text.lastIndexOf("\n", at - 1) + 1;
  return { line: text.slice(0, at).split("\n").length, column: [...text.slice(start, at)].length + 1 };
}

function refuseAt(text, at, reason) {
  const { line, column } = placeInText(text, at);
  throw new Refusal(line, reason, column);
}

const isToken = (word) => (/^[0-9]/.test(word) ? SOURCE_NUMBER.test(word) && BigInt(word) < 2n ** 64n
  : !word.includes(".") || FIELD_WIDTHS.has(word));

// Cuts a source into tokens, each with its line and its place in the text.
function tokensOf(text) {
  const tokens = [];
  let [place, line] = [0, 1];
  const countLines = (until) => {
    for (let at = text.indexOf("\n", place); at >= 0 && at < until; at = text.indexOf("\n", at + 1)) {
      line += 1;
    }
    place = until;
  };
  for (;;) {
    BLANKS.lastIndex = place;
    BLANKS.exec(text);
    countLines(BLANKS.lastIndex);
    if (place === text.length) {
      return [...tokens, { word: "", line, at: place }];
    }
    TOKEN.lastIndex = place;
    const found = TOKEN.exec(text);
    if (!found || !isToken(found[0])) {
      refuseAt(text, place, `no token of the language begins here${found ? `: \`${found[0]}\` is ${
        /^[0-9]/.test(found[0]) ? "no number below 2^64" : "none of the 37 fields"}` : ""}`);
    }
    tokens.push({ word: found[0], line, at: place });
    place = TOKEN.lastIndex;
  }
}

// Refuses a text in which more brackets are open at once than may be.
function refuseDepth(text, tokens) {
  let [open, most, first] = [0, 0, null];
  for (const token of tokens) {
    open = Math.max(0, open + (/^[([{]$/.test(token.word) ? 1 : /^[)\]}]$/.test(token.word) ? -1 : 0));
    most = Math.max(most, open);
    first = first || (open > MOST_BRACKETS ? token : null);
  }
  if (first) {
    refuseAt(text, first.at, `${grouped(most)} brackets are open at once, and ${MOST_BRACKETS} are allowed; this is `
      + "the first one too many");
  }
}

const sumOf = (numbers) => numbers.reduce((one, other) => one + other, 0);
const isWidth = (width) => width >= 1 && width <= 64;

class SourceReader {
  constructor(text) {
    this.text = text;
    this.tokens = tokensOf(text);
    refuseDepth(text, this.tokens);
    this.place = 0;
    this.objects = new Map();
    this.declared = 0;
    // For each local its name and its width, or null where that isn't known.
    this.locals = [];
    this.scopes = [];
    this.statements = [];
    this.fields = new Set();
    // Each declaration and statement with the rules that it breaks, and the one that is read now.
    this.parts = [];
    this.part = null;
    // How many turns the statements that are read now have, and how many changes all statements make.
    this.turns = 1;
    this.isInRepeat = false;
    this.changes = 0;
  }

  get next() {
    return this.tokens[this.place];
  }

  refuse(wanted) {
    const { word, at } = this.next;
    refuseAt(this.text, at, `expected ${wanted}, ${word ? `found \`${word}\`` : "but the text ends here"}`);
  }

  // Begins a declaration or a statement: what is read from here on, down to `endPart`, are its own parts.
  beginPart(at) {
    const part = { at, rules: new Set(), above: this.part };
    this.parts.push(part);
    this.part = part;
    return part;
  }

  endPart() {
    this.part = this.part.above;
  }

  // Says of the declaration or statement that is read whether it keeps the rule.
  rule(number, isKept) {
    if (!isKept) {
      this.part.rules.add(number);
    }
  }

  // Widths that aren't known fit.
  sameWidth(rule, one, other) {
    this.rule(rule, one === null || other === null || one === other);
  }

  // The word of the next token, where that is this one.
  match(word) {
    const fits = this.next.word === word && word !== "";
    this.place += fits ? 1 : 0;
    return fits;
  }

  take(word) {
    return this.match(word) || this.refuse(`\`${word}\``);
  }

  takeName(wanted) {
    const { word } = this.next;
    if (!/^[A-Za-z]/.test(word) || word.includes(".") || KEYWORDS.has(word)) {
      this.refuse(wanted || "a name");
    }
    this.place += 1;
    return word;
  }

  takeNumber() {
    const { word } = this.next;
    if (!SOURCE_NUMBER.test(word)) {
      this.refuse("a number");
    }
    this.place += 1;
    return BigInt(word);
  }

  takeWidth() {
    const width = Number(this.takeNumber());
    this.rule(2, isWidth(width));
    return width;
  }

  // Items with a comma between them, up to the closing word.
  takeList(closing, takeItem) {
    const items = [];
    do {
      items.push(takeItem());
    } while (this.match(","));
    this.take(closing);
    return items;
  }

  takeWidths() {
    this.take("(");
    return this.takeList(")", () => this.takeWidth());
  }

  fits(value, width) {
    this.rule(4, !isWidth(width) || value < 2n ** BigInt(width));
  }

  takeLiteral() {
    const value = this.takeNumber();
    this.take(":");
    const width = this.takeWidth();
    this.fits(value, width);
    return { kind: "const", constant: String(value), width, operands: [] };
  }

  takeDeclaration(kind) {
    const { line, at } = this.tokens[this.place - 1];
    this.beginPart(at);
    const name = this.takeName();
    const object = { kind, keys: [], values: [], rows: 1, line, at, rowPlaces: [] };
    if (kind === "int") {
      this.take(":");
      object.values = [this.takeWidth()];
      this.take("=");
      const start = this.takeNumber();
      object.start = String(start);
      this.fits(start, object.values[0]);
      this.take(";");
    } else if (kind === "vector") {
      this.take("length");
      object.rows = this.takeRoom();
      this.take("->");
      Object.assign(object, { keys: [32], values: this.takeWidths() });
      this.take(";");
    } else {
      object.keys = this.takeWidths();
      this.take("->");
      object.values = this.takeWidths();
      this.takeRows(object);
    }
    this.rule(1, !this.objects.has(name));
    this.rule(3, [object.keys, object.values].every((widths) =>
      widths.length <= MOST_IN_GROUP && sumOf(widths) <= MOST_BITS_IN_GROUP));
    this.declared += 1;
    this.objects.set(name, object);
    this.endPart();
  }

  // A capacity or a length.
  takeRoom() {
    const rows = Number(this.takeNumber());
    this.rule(5, rows >= 1 && rows <= MOST_ENTRIES);
    return rows;
  }

  takeRows(object) {
    if (object.kind === "map") {
      this.take("capacity");
      object.rows = this.takeRoom();
      this.take(";");
      return;
    }
    const takeLiterals = (widths) => {
      this.take("(");
      const literals = this.takeList(")", () => this.takeLiteral());
      this.rule(6, literals.map(({ width }) => width).join() === widths.join());
      return literals.map(({ constant }) => constant).join();
    };
    const keys = new Set();
    this.take("{");
    for (object.rows = 0; !this.match("}"); object.rows += 1) {
      object.rowPlaces.push(this.next.at);
      keys.add(takeLiterals(object.keys));
      this.take("->");
      takeLiterals(object.values);
      this.take(";");
    }
    this.rule(6, keys.size === object.rows);
  }

  // Declares locals of a statement, which come into scope after it.
  declare(names, widths) {
    const scope = this.scopes[this.scopes.length - 1];
    const isTaken = (name) => this.objects.has(name) || this.scopes.some((known) => known.has(name));
    this.rule(7, new Set(names).size === names.length && !names.some(isTaken));
    return names.map((name, place) => {
      this.locals.push({ name, width: widths[place] === undefined ? null : widths[place] });
      scope.set(name, this.locals.length - 1);
      return this.locals.length - 1;
    });
  }

  // The number of a local, or undefined where none of this name is in scope.
  localOf(name) {
    const scope = this.scopes.findLast((names) => names.has(name));
    this.rule(8, scope !== undefined);
    return scope && scope.get(name);
  }

  widthOf(local) {
    return local === undefined ? null : this.locals[local].width;
  }

  takeField() {
    const { word } = this.next;
    this.place += 1;
    this.fields.add(word);
    return word;
  }

  takeOperand() {
    const { word } = this.next;
    if (/^[0-9]/.test(word)) {
      return this.takeLiteral();
    }
    if (word.includes(".")) {
      const field = this.takeField();
      return { kind: "field", field, width: FIELD_WIDTHS.get(field) };
    }
    if (this.match("(")) {
      return this.closed(this.takeExpression(), ")");
    }
    if (["byte", "cast", "select", "adjust"].includes(word)) {
      this.place += 1;
      this.take("(");
      return this.closed(this.takeCall(word), ")");
    }
    const local = this.localOf(this.takeName("an expression"));
    return { kind: "local", local, width: this.widthOf(local) };
  }

  closed(inner, closing) {
    this.take(closing);
    return inner;
  }

  takeCall(kind) {
    const given = kind === "cast" ? this.takeWidth() : null;
    const operands = [];
    while (operands.length < { byte: 1, cast: 1, select: 3, adjust: 3 }[kind]) {
      if (operands.length > 0 || kind === "cast") {
        this.take(",");
      }
      operands.push(this.takeExpression());
    }
    const widths = operands.map(({ width }) => width);
    if (kind === "select") {
      this.sameWidth(9, widths[0], 1);
      this.sameWidth(9, widths[1], widths[2]);
    } else if (kind !== "cast") {
      widths.forEach((width) => this.sameWidth(9, width, 16));
    }
    return { kind, operands, width: kind === "select" ? widths[1] : { byte: 8, cast: given, adjust: 16 }[kind] };
  }

  takeSigned() {
    if (!this.match("~")) {
      return this.takeOperand();
    }
    const operand = this.takeOperand();
    return { kind: "not", operands: [operand], width: operand.width };
  }

  takeExpression() {
    const left = this.takeSigned();
    const { word } = this.next;
    if (word === "<<" || word === ">>") {
      this.place += 1;
      const shift = this.takeNumber();
      this.rule(13, shift <= 63n);
      return { kind: word === "<<" ? "shl" : "shr", operands: [left], shift: String(shift), width: left.width };
    }
    const kind = INFIX.get(word);
    if (!kind) {
      return left;
    }
    this.place += 1;
    const operands = [left, this.takeSigned()];
    this.sameWidth(9, left.width, operands[1].width);
    return { kind, operands, width: ["eq", "ne", "lt", "le"].includes(kind) ? 1 : left.width };
  }

  // An object with its keys.
  takeAccess() {
    const object = this.takeName("an object");
    const declared = this.objects.get(object);
    this.rule(8, declared !== undefined);
    this.take("[");
    const keys = this.match("]") ? [] : this.takeList("]", () => this.takeExpression());
    this.fit(keys, declared && declared.keys);
    return { object, keys };
  }

  // Whether expressions have the widths that an object declares.
  fit(expressions, widths) {
    this.rule(11, !widths || expressions.length === widths.length);
    expressions.forEach(({ width }, place) => this.sameWidth(11, width, widths ? widths[place] : null));
  }

  takeBlock() {
    const statements = [];
    this.take("{");
    this.scopes.push(new Map());
    while (this.next.word !== "}" && this.next.word !== "") {
      statements.push(this.takeStatement(alwaysEnds(statements)));
    }
    this.take("}");
    this.scopes.pop();
    return statements;
  }

  takeStatement(isUnreached) {
    const { word, line, at } = this.next;
    const statement = { kind: word, line, at, number: this.statements.length };
    this.statements.push(statement);
    this.beginPart(at);
    this.rule(14, !isUnreached);
    const takers = { let: "takeLet", look: "takeLook", put: "takeChange", del: "takeChange", if: "takeIf",
      repeat: "takeRepeat", send: "takeSend", drop: "takeDrop" };
    if (Object.hasOwn(takers, word)) {
      this.place += 1;
      this[takers[word]](statement);
    } else {
      this.takeAssignment(statement);
    }
    this.endPart();
    return statement;
  }

  takeLet(statement) {
    const name = this.takeName();
    this.take("=");
    statement.value = this.takeExpression();
    this.take(";");
    [statement.local] = this.declare([name], [statement.value.width]);
  }

  takeAssignment(statement) {
    let width = null;
    statement.kind = "assign";
    if (this.next.word.includes(".")) {
      statement.field = this.takeField();
      this.rule(10, !READ_ONLY.has(statement.field));
      width = FIELD_WIDTHS.get(statement.field);
    } else {
      statement.local = this.localOf(this.takeName("a statement"));
      width = this.widthOf(statement.local);
    }
    this.take("=");
    statement.value = this.takeExpression();
    this.sameWidth(9, width, statement.value.width);
    this.take(";");
  }

  takeLook(statement) {
    const names = this.takeList("=", () => this.takeName());
    Object.assign(statement, this.takeAccess());
    this.take(";");
    const declared = this.objects.get(statement.object);
    const widths = declared ? [1, ...declared.values] : [];
    this.rule(11, !declared || names.length === widths.length);
    statement.locals = this.declare(names, widths);
  }

  takeChange(statement) {
    const name = this.takeName();
    this.take("=");
    Object.assign(statement, this.takeAccess());
    const declared = this.objects.get(statement.object);
    if (statement.kind === "put") {
      this.take("->");
      statement.values = this.takeList(";", () => this.takeExpression());
      this.fit(statement.values, declared && declared.values);
      this.rule(12, !declared || declared.kind !== "table");
    } else {
      this.take(";");
      this.rule(12, !declared || declared.kind === "map");
    }
    this.changes += this.turns;
    [statement.local] = this.declare([name], [1]);
  }

  takeIf(statement) {
    statement.condition = this.takeExpression();
    this.sameWidth(9, statement.condition.width, 1);
    statement.first = this.takeBlock();
    statement.second = this.match("else") ? this.takeBlock() : [];
  }

  takeRepeat(statement) {
    const name = this.takeName();
    statement.turns = Number(this.takeNumber());
    this.rule(13, !this.isInRepeat && statement.turns >= 1 && statement.turns <= 64);
    this.scopes.push(new Map());
    [statement.local] = this.declare([name], [32]);
    this.isInRepeat = true;
    this.turns = statement.turns;
    statement.body = this.takeBlock();
    this.isInRepeat = false;
    this.turns = 1;
    this.scopes.pop();
    this.rule(14, !alwaysEnds(statement.body));
  }

  takeSend(statement) {
    statement.port = this.takeExpression();
    this.sameWidth(9, statement.port.width, 8);
    this.take(";");
  }

  takeDrop() {
    this.take(";");
  }

  takeSource() {
    const kinds = ["table", "map", "vector", "int"];
    for (let kind = kinds.find((word) => this.match(word)); kind; kind = kinds.find((word) => this.match(word))) {
      this.takeDeclaration(kind);
    }
    if (!this.match("process")) {
      this.refuse("a declaration or `process`");
    }
    const { line: processLine, at: processAt } = this.tokens[this.place - 1];
    const { objects, locals, statements, fields, tokens } = this;
    const body = this.takeBlock();
    if (this.next.word !== "") {
      this.refuse("the end of the text");
    }
    this.refuseSizesAndRules();
    return { objects, locals, statements, fields, tokens, body, processLine, processAt };
  }

  // The first cause among those that are asked once the grammar is kept.
  refuseSizesAndRules() {
    const within = (have, allowed, what) => {
      if (have > allowed) {
        throw new Refusal(null, `${grouped(have)} ${what}, and ${grouped(allowed)} are allowed`);
      }
    };
    within(this.declared, MOST_OBJECTS, "objects are declared");
    for (const { at, rules } of this.parts) {
      const asked = [...rules].filter((rule) => !rules.has(8) || !ASKED_OF_KNOWN_NAMES.includes(rule));
      if (asked.length > 0) {
        const rule = Math.min(...asked);
        refuseAt(this.text, at, `rule ${rule} is broken: ${RULES.get(rule)}`);
      }
    }
    const rows = [...this.objects.values()].map((object) => (object.kind === "int" ? 0 : object.rows));
    within(sumOf(rows), MOST_ENTRIES, "rows, capacities and lengths are declared together");
    within(this.changes, MOST_CHANGES, "`put` and `del` are written, each counted as often as it runs");
  }
}

// Whether the last of the statements always ends the run.
function alwaysEnds(statements) {
  const last = statements[statements.length - 1];
  return last !== undefined && (last.kind === "send" || last.kind === "drop"
    || (last.kind === "if" && alwaysEnds(last.first) && alwaysEnds(last.second)));
}

// The objects, locals, fields and statements of a source.
function readSource(text) {
  const bytes = new TextEncoder().encode(text).length;
  if (bytes > MOST_BYTES) {
    throw new Refusal(null, `the source has ${grouped(bytes)} bytes, and ${grouped(MOST_BYTES)} are allowed`);
  }
  return { ...new SourceReader(text).takeSource(), text, lines: linesOf(text) };
}
