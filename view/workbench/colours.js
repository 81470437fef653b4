"use strict";

// Colours the lines of a text, by a TextMate grammar: for sources the one that editors use too, for the other texts
// small ones in the same form. No rule spans two lines, since none of these texts has a token that does.

const LINE_GRAMMARS = {
  trace: [["comment", "^#.*"], ["constant.numeric", "^[0-9]+(?= )"], ["string", "[0-9a-fA-F]+$|-$"]],
  schedule: [["comment", "^#.*"], ["storage", "^(fine|drain)$"], ["keyword", "^[acwkuhdsxyz]\\b"],
    ["variable", "\\b(up|down|ctl|ack)\\b"], ["constant.numeric", "[0-9]+$"]],
  limits: [["comment", "#.*"], ["storage", "^\\s*(table_bits|stages|writeback|transfer_bytes)\\b"],
    ["constant.numeric", "\\b[0-9][0-9_]*\\b"]],
  split: [["comment", "^#.*"], ["storage", "^(split|end)\\b"], ["support", "\\b(carried)\\b"],
    ["keyword", "\\b(server)\\b"], ["variable", "\\b(post)\\b"], ["constant.numeric", "\\b[0-9]+\\b"]],
  report: [["comment", "^#.*"], ["storage", "^(report|packets|events|version|drained|order|object|switch|end|link)\\b"],
    ["keyword", "^packet\\b"], ["support", "\\b(fast|slow|up|pass|held)\\b"], ["variable", "\\b(send|drop)\\b"],
    ["string", "(?<=send [0-9]{1,3} )[0-9a-f]+$"], ["constant.numeric", "\\b[0-9]+\\b"]],
  chain: [["comment", "//.*"], ["keyword.operator", "::|->"], ["variable", "\\bout\\b"],
    ["constant.numeric", "\\b[0-9]+\\b"], ["entity", "\\b[A-Za-z][A-Za-z0-9_]*\\b"]],
};

// Which colour a scope of TextMate has, by its beginning.
const SCOPES = [
  ["comment", "comment"], ["keyword.operator", "operator"], ["keyword", "keyword"], ["storage", "storage"],
  ["support", "support"], ["variable.other", "name"], ["variable", "variable"],
  ["constant", "number"], ["string", "string"],
  ["entity", "name"], ["invalid", "wrong"],
];

const colourOf = (scope) => (SCOPES.find(([start]) => (scope || "").startsWith(start)) || ["", ""])[1];

class Grammar {
  // `rules` are [scope, pattern, captures].
  constructor(rules) {
    this.rules = rules.map(([scope, pattern, captures]) =>
      ({ colour: colourOf(scope), captures: captures || [], pattern: new RegExp(pattern, captures ? "dg" : "g") }));
  }

  // The pieces of a line with their colours: [[text, colour]].
  piecesOf(line) {
    const pieces = [];
    // Of each rule its next match, so that a long line is searched once for each.
    const matches = this.rules.map((rule) => this.matchFrom(rule, line, 0));
    let at = 0;
    while (at < line.length) {
      const first = this.firstOf(matches);
      if (!first) {
        break;
      }
      const { rule, found } = first;
      pieces.push([line.slice(at, found.index), ""], ...this.coloured(rule, found));
      at = found.index + found[0].length;
      matches.forEach((match, place) => {
        if (match && match.found.index < at) {
          matches[place] = this.matchFrom(match.rule, line, at);
        }
      });
    }
    pieces.push([line.slice(at), ""]);
    return pieces.filter(([text]) => text !== "");
  }

  matchFrom(rule, line, at) {
    rule.pattern.lastIndex = at;
    const found = rule.pattern.exec(line);
    return found && found[0] !== "" ? { rule, found } : null;
  }

  // The match that comes first in the line; of several at one place that of the first rule.
  firstOf(matches) {
    return matches.reduce((first, match) =>
      (match && (!first || match.found.index < first.found.index) ? match : first), null);
  }

  coloured({ colour, captures }, found) {
    const pieces = [];
    let at = found.index;
    captures.forEach(([number, scope]) => {
      const [start, end] = found.indices[number] || [at, at];
      if (start >= at && end > start) {
        pieces.push([found.input.slice(at, start), colour], [found.input.slice(start, end), colourOf(scope)]);
        at = end;
      }
    });
    return [...pieces, [found.input.slice(at, found.index + found[0].length), colour]];
  }
}

// The rules of a TextMate grammar. What has a beginning and an end is coloured up to the end of its line at most.
function rulesOf(grammar) {
  const rules = [];
  const seen = new Set();
  const add = ({ include, patterns, name, match, begin, end, captures, beginCaptures }) => {
    if (include && !seen.has(include)) {
      seen.add(include);
      add(include === "$self" ? { patterns: grammar.patterns } : (grammar.repository || {})[include.slice(1)] || {});
    }
    const listed = Object.entries(captures || beginCaptures || {}).map(([number, one]) => [Number(number), one.name]);
    if (match) {
      rules.push([name, match, listed.length > 0 && listed]);
    } else if (begin) {
      const isOpen = !end || end === "$" || end === "\\n";
      rules.push([name, isOpen ? `${begin}.*` : `${begin}.*?(?:${end}|$)`, listed.length > 0 && listed]);
    }
    (patterns || []).forEach((one) => match || begin || add(one));
  };
  add({ patterns: grammar.patterns });
  return rules;
}

const grammars = new Map(Object.entries(LINE_GRAMMARS).map(([kind, rules]) => [kind, new Grammar(rules)]));

// Takes the grammar of sources. Where a pattern of it is none of this browser's, sources have no colours.
function takeGrammar(json) {
  try {
    grammars.set("source", new Grammar(rulesOf(json)));
  } catch (fault) {
    grammars.set("source", new Grammar([]));
  }
}
