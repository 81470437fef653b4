"use strict";

// An editor: a field of text, and over it the same text in colours, with the numbers of its lines and the place of a
// refusal. Only the lines that are in sight are drawn.

const LINE_HEIGHT = 19;
// Of a line that is longer only the part in sight is drawn, and so many characters at its sides.
const LONG_LINE = 1000;
const BESIDE_SIGHT = 50;
// A line that is still longer has no colours.
const LONGEST_COLOURED = 10000;

class Editor {
  constructor(title, grammarName, changed) {
    this.grammarName = grammarName;
    this.changed = changed;
    this.original = "";
    this.mark = null;
    this.field = make("textarea");
    Object.assign(this.field, { spellcheck: false, wrap: "off", autocomplete: "off", rows: 12 });
    this.field.setAttribute("aria-label", title);
    this.field.setAttribute("autocapitalize", "off");
    this.gutter = make("div", "gutter");
    this.sight = make("div", "sight");
    this.gutter.setAttribute("aria-hidden", "true");
    this.sight.setAttribute("aria-hidden", "true");
    this.element = makeWith("div", "editor", [this.gutter, makeWith("div", "sheet", [this.sight, this.field])]);
    this.field.addEventListener("input", () => this.take());
    this.field.addEventListener("scroll", () => this.draw());
    this.field.addEventListener("keydown", (pressed) => this.indent(pressed));
    new ResizeObserver(() => this.draw()).observe(this.field);
    this.split();
  }

  // The text as the program gets it. A field keeps no CR, so as long as nothing is typed, the text is the one that was
  // given; from then on its lines end as they all did before.
  get text() {
    return this.original;
  }

  set text(text) {
    this.original = text;
    this.lineEnd = /\r\n/.test(text) && !/(^|[^\r])\n/.test(text) ? "\r\n" : "\n";
    this.field.value = text;
    this.split();
  }

  take() {
    this.original = this.lineEnd === "\r\n" ? this.field.value.replaceAll("\n", "\r\n") : this.field.value;
    this.mark = null;
    this.changed();
    // Several keys of one frame are drawn once.
    if (!this.isWaiting) {
      this.isWaiting = true;
      requestAnimationFrame(() => {
        this.isWaiting = false;
        this.split();
      });
    }
  }

  // A new line begins as far to the right as the one before.
  indent(pressed) {
    if (pressed.key !== "Enter" || pressed.isComposing || this.grammarName !== "source") {
      return;
    }
    const { value, selectionStart } = this.field;
    const line = value.slice(value.lastIndexOf("\n", selectionStart - 1) + 1, selectionStart);
    const [blanks] = /^ */.exec(line);
    if (blanks !== "") {
      pressed.preventDefault();
      document.execCommand("insertText", false, `\n${blanks}`);
    }
  }

  split() {
    this.lines = this.field.value.split("\n");
    this.pieces = new Map();
    this.draw();
  }

  // Marks a place: { line, column, words }, or none.
  showMark(mark) {
    this.mark = mark;
    this.draw();
  }

  // Goes to a line and column.
  goTo({ line, column }) {
    const before = this.lines.slice(0, line - 1).reduce((sum, { length }) => sum + length + 1, 0);
    const at = before + Math.max(0, Math.min(column - 1, (this.lines[line - 1] || "").length));
    this.field.focus();
    this.field.setSelectionRange(at, at);
    this.field.scrollTop = Math.max(0, (line - 6) * LINE_HEIGHT);
    this.field.scrollLeft = Math.max(0, column * this.letterWidth - this.field.clientWidth / 2);
  }

  draw() {
    const { scrollTop, scrollLeft, clientHeight } = this.field;
    const first = Math.floor(scrollTop / LINE_HEIGHT);
    const count = Math.ceil(clientHeight / LINE_HEIGHT) + 1;
    const shown = this.lines.slice(first, first + count);
    const shift = first * LINE_HEIGHT - scrollTop;
    this.gutter.style.setProperty("--digits", String(this.lines.length).length);
    this.gutter.replaceChildren(...shown.map((_, place) => this.drawNumber(first + place + 1, shift)));
    this.sight.style.transform = `translate(${-scrollLeft}px, ${shift}px)`;
    this.sight.replaceChildren(...shown.map((line, place) => this.drawLine(line, first + place + 1)));
  }

  drawNumber(number, shift) {
    const isMarked = this.mark && this.mark.line === number;
    const element = make("span", isMarked ? "number marked" : "number", number);
    element.style.transform = `translateY(${shift}px)`;
    return element;
  }

  drawLine(line, number) {
    const isMarked = Boolean(this.mark) && this.mark.line === number;
    const pieces = isMarked ? this.markPieces(line, this.piecesOf(line)) : this.piecesOf(line);
    const [low, high] = line.length > LONG_LINE ? this.columnsInSight() : [0, Infinity];
    const spans = [];
    let [at, start] = [0, null];
    pieces.forEach(([text, colour]) => {
      const seen = text.slice(Math.max(0, low - at), Math.max(0, high - at));
      if (seen !== "") {
        start = start === null ? Math.max(at, low) : start;
        spans.push(make("span", colour && colour.split(" ").map((one) => `c-${one}`).join(" "), seen));
      }
      at += text.length;
    });
    const element = makeWith("div", isMarked ? "line marked" : "line", spans);
    element.style.paddingLeft = start ? `${start}ch` : "";
    return element;
  }

  // The coloured pieces of a line, found once for each text.
  piecesOf(line) {
    const grammar = grammars.get(this.grammarName);
    if (!this.pieces.has(line)) {
      const isColoured = grammar && line.length <= LONGEST_COLOURED;
      this.pieces.set(line, isColoured ? grammar.piecesOf(line) : [[line, ""]]);
    }
    return this.pieces.get(line);
  }

  get letterWidth() {
    return parseFloat(getComputedStyle(this.gutter).width) / (String(this.lines.length).length + 2) || 8;
  }

  columnsInSight() {
    const { scrollLeft, clientWidth } = this.field;
    const columns = [scrollLeft, scrollLeft + clientWidth].map((pixels) => Math.round(pixels / this.letterWidth));
    return [Math.max(0, columns[0] - BESIDE_SIGHT), columns[1] + BESIDE_SIGHT];
  }

  // The pieces of the marked line, with the token at the place of the mark set apart.
  markPieces(line, pieces) {
    const start = Math.min(this.placeOfColumn(line, this.mark.column), line.length);
    const [token] = /^(\w+|\s*\S?)/.exec(line.slice(start));
    const end = start + Math.max(1, token.length);
    const parts = [];
    let at = 0;
    pieces.forEach(([text, colour]) => {
      [[0, start, ""], [start, end, " here"], [end, Infinity, ""]].forEach(([low, high, mark]) => {
        parts.push([text.slice(Math.max(0, low - at), Math.max(0, high - at)), `${colour}${mark}`.trim()]);
      });
      at += text.length;
    });
    return [...parts, [start >= line.length ? " " : "", "here"]].filter(([text]) => text !== "");
  }

  // A column counts characters of the text, and a place counts the units of the browser's strings.
  placeOfColumn(line, column) {
    return [...line].slice(0, column - 1).join("").length;
  }
}
