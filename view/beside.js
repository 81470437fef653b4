"use strict";

// Draws a source beside its split: for each statement the instructions that it became, and where each of them is done.
// The page makes the flat program of the source itself, and draws this only where that is the one of the answer.

// The places of an instruction, each a column: its name, its title, what is done there, and which instructions are.
const COLUMNS = [
  ["before", "switch, before", "to finish fast packets; done again for other packets",
    ({ before, slow }) => before !== null && slow !== "carried"],
  ["carried", "carried", "on the switch before the server, for every packet", ({ slow }) => slow === "carried"],
  ["server", "server", "for packets that visit it", ({ slow }) => slow === "server"],
  ["after", "switch, after", "on the way back from the server", ({ slow }) => slow === "post"],
];

// So many instructions of one statement are shown in a column at first.
const SHOWN_CHIPS = 6;

// So many columns further to the right stands what is in a block.
const INDENTATION = 2;
const TAB = 8;

// The columns that the blanks at the start of a line take.
function columnsOf(blanks) {
  return [...blanks].reduce((column, blank) => (blank === "\t" ? column + TAB - (column % TAB) : column + 1), 0);
}

// The declarations, statements and the word `process` of a source, each by the place at which it begins.
function itemsOf(source) {
  return new Map([
    ...[...source.objects].map(([object, { at }]) => [at, { object }]),
    [source.processAt, { isProcess: true }],
    ...source.statements.map((statement) => [statement.at, { statement }]),
  ]);
}

// The tokens of each line, with how many blocks are open at each; a closing bracket stands outside its block.
function tokensByLine(source) {
  const lines = source.text.split("\n").map(() => []);
  let depth = 0;
  for (const { word, line, at } of source.tokens) {
    depth -= word === "}" ? 1 : 0;
    lines[line - 1].push({ word, at, depth });
    depth += word === "{" ? 1 : 0;
  }
  return lines;
}

// Where a line in which several items begin is cut: before each item, each row of a table, and each closing bracket.
// The first cut is its beginning. Any other line has that one alone.
function cutsOf(tokens, start, items, rows) {
  const begins = ({ word, at }, place) => place > 0 && (items.has(at) || rows.has(at)
    || (word === "}" && tokens[place - 1].word !== "{"));
  const isLaidOut = tokens.filter(({ at }) => items.has(at)).length > 1;
  const [first] = tokens;
  const cuts = isLaidOut ? tokens.filter(begins).map(({ at, depth }) => ({ at, deeper: depth - first.depth })) : [];
  return [{ at: start, deeper: 0 }, ...cuts];
}

// The source in pieces, of which each has one item at most: its lines, but one in which several items begin is laid out
// over several pieces, each in as far as its block.
function piecesOf(source) {
  const items = itemsOf(source);
  const rows = new Set([...source.objects.values()].flatMap(({ rowPlaces }) => rowPlaces));
  const lines = tokensByLine(source);
  let start = 0;
  return source.text.split("\n").flatMap((text, place) => {
    const cuts = cutsOf(lines[place], start, items, rows);
    const end = start + text.length;
    const blanks = /^[ \t]*/.exec(text)[0];
    start = end + 1;
    return cuts.map(({ at, deeper }, number) => {
      const until = cuts[number + 1] ? cuts[number + 1].at : end;
      const inner = source.text.slice(at, until).trimEnd();
      const indentation = Math.max(0, columnsOf(blanks) + INDENTATION * deeper);
      const token = number === 0 ? lines[place].find((one) => items.has(one.at)) : { at };
      return {
        line: place + 1, at, isFirst: number === 0, isLaidOut: cuts.length > 1, indentation,
        text: number === 0 ? inner : " ".repeat(indentation) + inner,
        statement: null, object: null, isProcess: false, ...(token && token.at < until ? items.get(token.at) : null),
      };
    });
  });
}

class SourceDrawing {
  // `split` is the drawing of the split, whose marks are those of instructions.
  constructor(split, source) {
    this.split = split;
    this.source = source;
    this.rows = new Map();
    this.given = new Map();
    source.flat.instructions.forEach(({ statement, number, chooses }) => {
      const instruction = split.answer.instructions[number];
      this.given.set(statement, [...(this.given.get(statement) || []), { instruction, chooses }]);
    });
  }

  draw() {
    const lines = piecesOf(this.source);
    this.isLaidOut = lines.some(({ isLaidOut }) => isLaidOut);
    while (lines.length > 0 && lines[lines.length - 1].text.trim() === "") {
      lines.pop();
    }
    const heads = COLUMNS.map(([name, title, told]) => {
      const count = this.split.answer.instructions.filter(this.fitsOf(name)).length;
      return makeWith("span", `place ${name}`, [
        make("b", "", title), make("small", "", grouped(count)), make("small", "what", told),
      ]);
    });
    const head = makeWith("div", "source-row source-head", [make("span", "text", "the source"), ...heads]);
    return makeWith("div", "source-part", [
      make("h3", "", "What each statement became"), makeProse("p", "source", this.told()),
      makeWith("div", "source-lines", [head, ...lines.map((piece) => this.drawPiece(piece))]),
    ]);
  }

  told() {
    const layout = this.isLaidOut ? " A line of the source in which several statements begin is laid out here over "
      + "several lines, for reading alone: your text stays as it is." : "";
    const made = this.split.answer.kind === "split"
      ? " The split doesn't list the instructions: the page has made them from the source."
      : " The page has made these instructions from the source itself, and they are the ones that the split lists.";
    return "Each mark is an instruction of the split, with its number. Its column says where it runs. A `join` isn't "
      + "written in the source: it is a select of the value that holds after an `if`, or after a statement that may "
      + `have ended the run, and it is shown with that statement.${made}${layout}`;
  }

  fitsOf(column) {
    return COLUMNS.find(([name]) => name === column)[3];
  }

  drawPiece(piece) {
    const { line, text, statement, object, isProcess, isFirst, indentation } = piece;
    const given = [...(isProcess ? this.given.get(null) : []), ...((statement && this.given.get(statement)) || [])];
    const code = make("code", "text", text || " ");
    const row = makeWith("div", given.length > 0 ? "source-row filled" : "source-row", [
      makeWith("span", "line", [make("small", "", isFirst ? line : ""), code]),
    ]);
    row.dataset.line = line;
    code.style.setProperty("--indent", indentation);
    if (given.length > 0) {
      COLUMNS.forEach(([name, , , fits]) =>
        row.append(this.drawCell(name, given.filter(({ instruction }) => fits(instruction)))));
    } else if (object || statement) {
      row.append(make("span", "kept-where", object ? this.placeOf(object) : "no instruction"));
      row.dataset.object = object || "";
    }
    if (statement) {
      this.rows.set(statement, row);
    }
    return tellOf(row, () => this.tellPiece(piece, given));
  }

  // Where the rows of an object are.
  placeOf(name) {
    const table = this.split.tables.find((one) => one.name === name);
    if (!table) {
      return "nothing uses it";
    }
    return table.isReplicated ? "on the server, with a copy on the switch"
      : table.onSwitch ? "on the switch: its rows never change" : "on the server alone";
  }

  drawCell(name, given) {
    const cell = make("span", `place ${name}`);
    cell.dataset.numbers = given.map(({ instruction }) => instruction.number).join(" ");
    if (given.length === 0) {
      return cell;
    }
    const add = (some) => cell.append(...some.map(({ instruction, chooses }) => this.drawChip(instruction, chooses)));
    add(given.slice(0, SHOWN_CHIPS));
    // A button would take as much room as a single mark.
    const rest = given.slice(SHOWN_CHIPS);
    if (rest.length === 1) {
      add(rest);
    } else if (rest.length > 1) {
      const more = make("button", "more", `and ${grouped(rest.length)} more`);
      more.type = "button";
      more.addEventListener("click", () => {
        more.remove();
        add(rest);
      });
      cell.append(more);
    }
    return cell;
  }

  drawChip(instruction, chooses) {
    const chip = this.split.drawChip(instruction, "beside");
    if (chooses) {
      chip.classList.add("chooses");
      chip.querySelector(".word").textContent = "join";
    }
    return chip;
  }

  tellPiece({ line, at, isLaidOut, statement, isProcess }, given) {
    const counts = COLUMNS.map(([, title, , fits]) =>
      [title, given.filter(({ instruction }) => fits(instruction)).length]).filter(([, count]) => count > 0);
    const told = counts.map(([title, count]) => `${title}: ${grouped(count)}`).join("; ");
    const start = isProcess ? "Every program begins with three constants and the fields that it names. " : "";
    const turns = statement && this.isInRepeat(statement) ? ", of all turns of the `repeat` together" : "";
    const became = given.length > 0 ? `${start}${counted(given.length, "instruction")}${turns}: ${told}.`
      : "It became no instruction: it only says which value a name has from here on, or how the run ends.";
    const mine = given.flatMap(({ instruction }) => this.split.marks[instruction.number]);
    const column = isLaidOut ? `, column ${placeInText(this.source.text, at).column}` : "";
    return {
      note: `Line ${line}${column}. ${statement || isProcess ? became : ""}`, lines: [{ kind: "source", line }],
      related: mine.map((element) => ({ element, name: "same" })),
    };
  }

  isInRepeat(statement) {
    return (this.given.get(statement) || []).some(({ instruction }) => instruction.loop);
  }

  // The row of the statement that an instruction comes of, and its line.
  statementOf(number) {
    return this.source.flat.instructions[number].statement;
  }
}
