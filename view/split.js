"use strict";

// Draws a split: three lanes with instructions by stage, and what crosses between them.

const bytesFor = (bits) => Math.ceil(bits / 8);

// What an instruction does, in a word or two.
function wordOf(answer, { number, kind, field, object, width, shift }) {
  if (kind === "const") {
    return `= ${constantText(answer, { instruction: number, result: 0 })}`;
  }
  if (SYMBOLS.has(kind)) {
    return shift === undefined ? SYMBOLS.get(kind) : `${SYMBOLS.get(kind)} ${shift}`;
  }
  const short = { select: "?:", cast: `→ ${width}`, not: "~" };
  return field || (object ? `${kind} ${object}` : short[kind] || kind);
}

// Some numbers after a word, or nothing where there are none.
function listed(word, numbers) {
  const shown = numbers.slice(0, 12).join(", ");
  const more = numbers.length > 12 ? ` and ${numbers.length - 12} more` : "";
  return numbers.length === 0 ? "" : `${word} ${shown}${more}.`;
}

const SHAPES = new Set(["const", "field", "select", "look", "put"]);
const shapeOf = ({ kind }) => (kind === "del" ? "put" : SHAPES.has(kind) ? kind : "operator");

class SplitDrawing {
  constructor(answer, source, limits) {
    this.answer = answer;
    this.source = source;
    this.limits = limits;
    this.widths = widthsOf(answer, source);
    this.crossings = crossingsOf(answer);
    this.tables = tablesOf(answer, source);
    this.taken = takenBy(answer, source, limits);
    this.broken = brokenRuleOf(answer, source);
    this.marks = answer.instructions.map(() => []);
    this.users = answer.instructions.map(() => []);
    for (const { number, operands } of answer.instructions) {
      new Set(operands.map(({ instruction }) => instruction)).forEach((giver) => this.users[giver].push(number));
    }
    this.upward = new Set(this.crossings.up.map(({ instruction }) => instruction));
    this.beside = source ? new SourceDrawing(this, source) : null;
  }

  draw() {
    const { up, down } = this.crossings;
    const lanes = makeWith("div", "lanes", [
      this.drawPass("before", "Switch, before the server", this.exitOf()),
      this.drawCrossing("up", "Up to the server", up),
      this.drawServer(),
      this.drawCrossing("down", "Down from the server", down),
      this.drawPass("after", "Switch, after the server", this.drawOutput()),
    ]);
    const section = makeWith("section", "split", [
      make("h2", "", "Where each instruction is done"), ...this.drawBroken(), this.drawGauges(), ...this.drawStale(),
      this.drawLegend(),
      ...(this.beside ? [this.beside.draw()] : [make("p", "source",
        "With the source beside it, the page shows what each statement became.")]),
      make("h3", "", "The way of a packet"), lanes,
      makeWith("div", "beside", [this.drawTables(), this.drawBlocks()]),
    ]);
    letKeysMove(section, ".stage, .boxes, .values, .list, .source-row", ".stage");
    return section;
  }

  // Which rule the split breaks, if any.
  drawBroken() {
    if (!this.broken) {
      return [];
    }
    const { rule, instruction } = this.broken;
    const told = makeProse("p", "broken", `This split may not be taken: rule ${rule} is broken at instruction ${
      instruction.number}, ${wordOf(this.answer, instruction)}: ${SPLIT_RULES.get(rule)}.`);
    told.tabIndex = 0;
    return [tellOf(told, () => this.tellInstruction(instruction))];
  }

  // What line 2 of the answer says and the split doesn't take, which is so where the split was edited.
  drawStale() {
    const { told } = this.answer;
    const wrong = [...(told || [])].filter(([name, number]) =>
      !canBeTold(name, number, this.taken.get(name), this.tables));
    const parts = wrong.map(([name, number]) => `${name} ${grouped(number)}`);
    const limits = this.limits ? "" : " with any limits";
    return wrong.length === 0 ? [] : [makeProse("p", "source stale",
      `Line 2 of the answer says ${parts.join(" and ")}. The split doesn't take that${limits}, so the split, the limits `
      + "or the sizes of objects have changed since. The numbers above are counted from the "
      + `${this.source ? "source and the split" : "split"}.`)];
  }

  // A number that the split takes, in words, and as a number where it is known. What can't be counted here is what the
  // answer of compile says.
  numberOf(name) {
    const [taken, told] = [this.taken.get(name), this.answer.told ? this.answer.told.get(name) : null];
    if (taken !== null) {
      return { have: taken, text: grouped(taken) };
    }
    const bits = name === "table_bits" ? tableBitsOf(this.tables) : null;
    if (told !== null && canBeTold(name, told, taken, this.tables)) {
      return { have: told, text: grouped(told) };
    }
    return { have: null, text: bits ? `${grouped(bits.rows)} + writeback × ${grouped(bits.changes)}` : "not known" };
  }

  drawGauges() {
    const allowed = new Map([["accesses", 1], ...(this.limits ? this.limits.limits : [])]);
    const gauges = [...this.taken.keys()].map((name) => {
      const { have, text } = this.numberOf(name);
      const limit = allowed.get(name);
      const isOver = limit !== undefined && have !== null && have > limit;
      const bar = make("span", "bar");
      if (limit !== undefined && have !== null) {
        const used = make("span", isOver ? "used over" : "used");
        used.style.width = `${limit === 0 ? (have > 0 ? 100 : 0) : Math.min(100, (100 * have) / limit)}%`;
        bar.append(used);
      }
      const told = limit === undefined ? "" : ` of ${grouped(limit)}${isOver ? ", too many" : ""}`;
      const gauge = makeWith("li", "mark gauge", [
        make("span", "name", name.replace("_", " ")), makeWith("span", "number", [make("b", "", text), told]), bar,
      ]);
      gauge.tabIndex = -1;
      gauge.dataset.name = name;
      return tellOf(gauge, () => ({
        note: `${name}: the split takes ${text}${told || "; no limits are given beside it"}.`,
        lines: [{ kind: this.answer.kind, line: this.answer.countsLine }, ...this.limitLine(name)],
      }));
    });
    return makeWith("ul", "gauges list", gauges);
  }

  limitLine(name) {
    if (!this.limits) {
      return [];
    }
    const place = this.limits.lines.findIndex((line) => line.trim().startsWith(name));
    return [{ kind: "limits", line: place + 1 }];
  }

  drawLegend() {
    const samples = [
      ["const", "= 7", "a constant"], ["field", "ip.src", "a field of the packet"], ["operator", "+", "an operator"],
      ["operator", "→ 16", "a cast"], ["select", "?:", "a select"], ["look", "look m", "a look into a table"],
      ["put", "put m", "a change of a table"],
    ];
    const shapes = samples.map(([shape, word, text]) =>
      makeWith("li", "", [make("span", `chip ${shape}`, word), make("span", "", text)]));
    const tags = [
      ["↻", "done before the server, and again on it or after it"], ["↑", "handed up to the server"],
      ["b4", "its block"],
    ].map(([tag, text]) => makeWith("li", "", [make("span", "tag", tag), make("span", "", text)]));
    return makeWith("ul", "legend", [...shapes, ...tags]);
  }

  // A mark for an instruction in a lane.
  drawChip(instruction, lane) {
    const { number, block, before, slow } = instruction;
    const word = wordOf(this.answer, instruction);
    const chip = makeWith("span", `mark chip ${shapeOf(instruction)}`, [
      make("span", "number", number), make("span", "word", word),
    ]);
    chip.tabIndex = -1;
    chip.title = instruction.constant === undefined ? word : this.titleOfConstant(instruction);
    const isTwice = before !== null && slow === "server";
    if (isTwice || (before !== null && slow === "post")) {
      chip.classList.add(isTwice ? "twice" : "anew");
      chip.append(make("span", "tag", "↻"));
    }
    if (lane === "before" && this.upward.has(number)) {
      chip.append(make("span", "tag", "↑"));
    }
    if ((lane === "before" || lane === "after") && block !== 0) {
      chip.append(make("span", "block", `b${block}`));
    }
    if (this.broken && this.broken.instruction.number === number) {
      chip.classList.add("wrong");
    }
    this.marks[number].push(chip);
    return tellOf(chip, () => this.tellInstruction(instruction));
  }

  // The number of a constant, and what it stands for where that is known.
  titleOfConstant({ number, constant }) {
    const meaning = this.answer.meanings.of(`${number}.0`);
    return meaning ? `${constant}, as ${MEANINGS.get(meaning).title}` : constant;
  }

  tellInstruction(instruction) {
    const { number, block, before, after, slow, line, partLine, operands } = instruction;
    const parts = [`Instruction ${number}, ${wordOf(this.answer, instruction)}: `];
    if (before !== null) {
      parts.push(`the switch does it in stage ${before}, before the server`);
      parts.push(slow === "carried" ? "" : "; for a packet that visits the server, ");
    }
    const again = before === null ? "" : " again";
    if (slow === "carried") {
      parts.push(this.upward.has(number) ? ", and hands it up" : ", and the server doesn't do it again");
    } else if (slow === "server") {
      parts.push(`the server does it${again}${again ? ", over its own rows" : ""}`);
    } else {
      parts.push(`the switch does it${again} after the server, in stage ${after}`);
    }
    parts.push(block === 0 ? "." : `. It counts where block ${block} is live.`);
    const givers = [...new Set(operands.map((value) => value.instruction))];
    parts.push(listed(" It reads", givers), listed(" It is read by", this.users[number]));
    const mine = (numbers, name) => numbers.flatMap((other) => this.marks[other].map((element) => ({ element, name })));
    const statement = this.beside ? this.beside.statementOf(number) : null;
    const row = statement ? this.beside.rows.get(statement) : null;
    return {
      note: parts.join(""),
      lines: [
        ...(statement ? [{ kind: "source", line: statement.line }] : []),
        ...[line, partLine, this.answer.blocks[block].line].map((place) => ({ kind: this.answer.kind, line: place })),
      ],
      related: [
        ...mine([number], "same"), ...mine(givers, "needed"),
        ...mine(this.users[number], "user"), { element: row, name: "origin" },
      ],
    };
  }

  // A pass of the switch: a column for each stage.
  drawPass(lane, title, foot) {
    const mine = this.answer.instructions.filter((instruction) => instruction[lane] !== null);
    const stages = [];
    for (const instruction of mine) {
      const stage = instruction[lane];
      while (stages.length <= stage) {
        stages.push([]);
      }
      stages[stage].push(instruction);
    }
    const columns = stages.map((instructions, stage) => {
      const chips = makeWith("div", "chips", instructions.map((instruction) => this.drawChip(instruction, lane)));
      chips.style.setProperty("--rows", Math.max(1, Math.min(instructions.length, 12)));
      return makeWith("div", "stage", [make("h4", "", instructions.length ? `stage ${stage}` : ""), chips]);
    });
    const depth = counted(Math.max(0, stages.length - 1), "stage");
    const told = mine.length ? `${counted(mine.length, "instruction")}, ${depth}` : "nothing is done here";
    const kept = columns.filter((column) => column.querySelector(".mark"));
    const strip = makeWith("div", "stages", kept);
    return makeWith("div", `lane switch ${lane}`, [
      makeWith("header", "", [make("h3", "", title), make("span", "told-count", told)]),
      tellHidden(strip, ".stage", "stage"), strip, foot,
    ]);
  }

  // What the server does, with a box for each block.
  drawServer() {
    const root = make("div", "boxes");
    const boxes = new Map([[0, { box: root, depth: 0 }]]);
    const boxOf = (block) => {
      const missing = [];
      let at = block;
      while (!boxes.has(at)) {
        missing.push(at);
        at = this.answer.blocks[at].parent;
      }
      for (const number of missing.reverse()) {
        const above = boxes.get(this.answer.blocks[number].parent);
        const place = above.depth < 8 ? above.box : above.outer;
        const box = make("div", "inside");
        place.append(makeWith("div", "box", [this.drawCondition(this.answer.blocks[number]), box]));
        boxes.set(number, { box, depth: above.depth + 1, outer: place });
      }
      return boxes.get(block).box;
    };
    const mine = this.answer.instructions.filter(({ slow }) => slow === "server");
    mine.forEach((instruction) => boxOf(instruction.block).append(this.drawChip(instruction, "server")));
    const again = mine.filter(({ before }) => before !== null).length;
    const told = mine.length ? `${counted(mine.length, "instruction")}, ${again} of them done on the switch too`
      : "nothing is done here";
    return makeWith("div", "lane server", [
      makeWith("header", "", [make("h3", "", "Server"), make("span", "told-count", told)]), root,
    ]);
  }

  drawCondition(block) {
    const condition = makeWith("span", "condition", [
      make("b", "", `b${block.number}`), ` where ${conditionOf(this.answer, block)}`,
    ]);
    return tellOf(condition, () => this.tellBlock(block));
  }

  tellBlock(block) {
    const mine = this.answer.instructions.filter((instruction) => instruction.block === block.number);
    const giver = block.condition ? this.marks[block.condition.instruction] : [];
    const outside = mine.filter(({ before }) => before === null).length;
    const live = block.number === 0 ? "Block 0 is always live"
      : `Block ${block.number} is live where block ${block.parent} is and ${valueName(block.condition)} is ${
        block.polarity}: ${conditionOf(this.answer, block)}`;
    return {
      note: `${live}.${outside ? " A packet for which it is live goes up to the server." : ""}`,
      lines: [{ kind: this.answer.kind, line: block.line }],
      related: [
        ...mine.flatMap(({ number }) => this.marks[number].map((element) => ({ element, name: "same" }))),
        ...giver.map((element) => ({ element, name: "needed" })),
      ],
    };
  }

  // Which packets leave the switch without the server.
  exitOf() {
    const outside = blocksOutside(this.answer);
    const exit = make("p", "exit");
    if (outside.size === 0) {
      exit.textContent = "◆ Every packet is fast: it leaves here, and never visits the server.";
    } else if (outside.has(0)) {
      exit.textContent = "▼ Every packet goes up to the server: none is fast.";
    } else {
      const first = [...outside].filter((block) =>
        !guardsOf(this.answer, block).slice(1).some(({ number }) => outside.has(number)));
      const conditions = first.sort((one, other) => one - other).map((block) => {
        const chain = guardsOf(this.answer, block).reverse().map((guard) => conditionOf(this.answer, guard));
        const told = makeWith("span", "condition", [make("b", "", `b${block}`), ` ${chain.join(" · ")}`]);
        return tellOf(told, () => this.tellBlock(this.answer.blocks[block]));
      });
      const joined = conditions.flatMap((told, place) => (place ? [" or ", told] : [told]));
      const rest = ". ◆ Every other packet is fast, and leaves here.";
      exit.append("▼ A packet goes up to the server where ", ...joined, rest);
    }
    return exit;
  }

  // The header that crosses, with each value as wide as its bits.
  drawCrossing(way, title, values) {
    const bits = bitsOf(values, this.widths);
    const size = bits === null ? "" : `, ${counted(bits, "bit")}, ${counted(bytesFor(bits), "byte")}`;
    const cells = values.map((value) => {
      const width = this.widths.of(valueName(value));
      const giver = atValue(this.answer, value);
      const cell = makeWith("span", width === undefined ? "mark value unknown" : "mark value", [
        make("b", "", valueName(value)), make("span", "word", wordOf(this.answer, giver)),
        make("span", "width", width === undefined ? "" : counted(width, "bit")),
      ]);
      cell.tabIndex = -1;
      cell.style.flexGrow = width || 1;
      this.marks[value.instruction].push(cell);
      return tellOf(cell, () => this.tellCrossing(way, value));
    });
    return makeWith("div", `crossing ${way}`, [
      makeWith("header", "", [make("h3", "", `▼ ${title}`),
        make("span", "told-count", values.length ? `${counted(values.length, "value")}${size}` : "nothing crosses")]),
      makeWith("div", "values", cells),
    ]);
  }

  tellCrossing(way, value) {
    const giver = atValue(this.answer, value);
    const by = giver.slow === "carried" ? "preprocessing" : "the server";
    return {
      ...this.tellInstruction(giver),
      note: `Value ${valueName(value)}, given by ${by}, goes ${way} with the packet: ${
        expressionOf(this.answer, value, 3)}.`,
    };
  }

  // The output, and who gives each part of it.
  drawOutput() {
    const { send, port, outputLine, writes } = this.answer;
    const parts = [["send", send, outputLine], ["port", port, outputLine],
      ...writes.map(({ field, value, line }) => [field, value, line])];
    const cells = parts.map(([name, value, line]) => {
      const giver = atValue(this.answer, value);
      const places = { post: `here, stage ${giver.after}`, server: "by the server", carried: "before the server" };
      const by = places[giver.slow];
      const cell = makeWith("span", "mark output", [
        make("b", "", name), make("span", "word", valueName(value)), make("span", "width", by),
      ]);
      cell.tabIndex = -1;
      return tellOf(cell, () => ({
        ...this.tellInstruction(giver),
        note: `A packet that visits the server leaves with ${name} = ${valueName(value)}, made ${by}: ${
          expressionOf(this.answer, value, 2)}.`,
        lines: [{ kind: this.answer.kind, line }, { kind: this.answer.kind, line: giver.line }],
      }));
    });
    return makeWith("div", "outputs", [make("span", "", "It leaves with "), makeWith("span", "values", cells)]);
  }

  drawTables() {
    const items = this.tables.map((table) => {
      const places = table.looks.flatMap(({ number, before, slow, after }) => [
        before === null ? "" : `switch before, stage ${before} (${number})`,
        slow === "server" ? `server (${number})` : "",
        after === null ? "" : `switch after, stage ${after} (${number})`,
      ]).filter(Boolean);
      const changes = table.writes.map(({ kind, number }) => `${kind} (${number})`);
      const { kind, keys, values, rows } = table.declared || {};
      const shape = kind ? `${kind} (${keys.join(", ")}) → (${values.join(", ")}), ${counted(rows, "row")}` : "";
      const item = makeWith("li", "mark table", [
        makeWith("span", "name", [make("b", "", `▤ ${table.name}`), make("span", "role", table.role)]),
        make("span", "shape", shape),
        make("span", "looks", `looked up: ${places.join(", ") || "nowhere"}`),
        ...(changes.length ? [make("span", "looks", `changed by the server: ${changes.join(", ")}`)] : []),
      ]);
      item.tabIndex = -1;
      return tellOf(item, () => this.tellTable(table));
    });
    const none = make("p", "", "No table is used.");
    return makeWith("div", "tables", [make("h3", "", "Tables"), items.length ? makeWith("ul", "list", items) : none]);
  }

  tellTable(table) {
    const all = [...table.looks, ...table.writes];
    const kept = table.isReplicated ? "the switch keeps a copy of it, and a write-back table for its changes"
      : table.onSwitch ? "the switch keeps its rows" : "the server alone has its rows";
    return {
      note: `${table.name}: ${kept}.`,
      lines: all.map(({ line }) => ({ kind: this.answer.kind, line })),
      related: all.flatMap(({ number }) => this.marks[number].map((element) => ({ element, name: "same" }))),
    };
  }

  drawBlocks() {
    const depths = [0];
    const tallies = this.answer.blocks.map(() => ({ before: 0, server: 0, after: 0, outside: 0 }));
    for (const { block, before, slow, after } of this.answer.instructions) {
      tallies[block].before += before === null ? 0 : 1;
      tallies[block].server += slow === "server" ? 1 : 0;
      tallies[block].after += after === null ? 0 : 1;
      tallies[block].outside += before === null ? 1 : 0;
    }
    const items = this.answer.blocks.map((block) => {
      depths[block.number] = block.parent === null ? 0 : depths[block.parent] + 1;
      const tally = tallies[block.number];
      const condition = block.parent === null ? "always live" : `where ${conditionOf(this.answer, block)}`;
      const told = ["before", "server", "after"].map((lane) => `${lane} ${tally[lane]}`);
      const item = makeWith("li", "mark block-line", [
        make("b", "", `b${block.number}`), make("span", "word", condition),
        make("span", "tallies", `${told.join(" · ")}${tally.outside ? " · goes up" : ""}`),
      ]);
      item.tabIndex = -1;
      item.style.setProperty("--depth", Math.min(depths[block.number], 12));
      return tellOf(item, () => this.tellBlock(block));
    });
    return makeWith("div", "blocks", [make("h3", "", "Blocks"), makeWith("ul", "list", items)]);
  }
}
