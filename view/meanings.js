"use strict";

// What numbers stand for, by the fields that they meet: a key under which `ip.src` is looked up is an IPv4 address.

// How the numbers of a field are written, and what they are called.
const FIELD_MEANINGS = new Map([
  ["ip.src", "ip"], ["ip.dst", "ip"], ["eth.src", "mac"], ["eth.dst", "mac"], ["eth.type", "type"],
  ["tcp.sport", "port"], ["tcp.dport", "port"], ["udp.sport", "port"], ["udp.dport", "port"],
  ["meta.port", "way"],
]);

const digitsOf = (number, count) => number.toString(16).padStart(count, "0");

const MEANINGS = new Map([
  ["ip", {
    title: "IPv4 address", textOf: (number) => [24n, 16n, 8n, 0n].map((at) => (number >> at) & 255n).join("."),
  }],
  ["mac", { title: "MAC address", textOf: (number) => digitsOf(number, 12).replace(/..(?=.)/g, "$&:") }],
  ["type", { title: "Ethernet type", textOf: (number) => `0x${digitsOf(number, 4)}` }],
  ["port", { title: "port", textOf: String }],
  ["way", { title: "port of the switch", textOf: String }],
]);

// The number, written as its meaning says; or as it is, where it has none.
function textOfNumber(number, meaning) {
  return meaning ? MEANINGS.get(meaning).textOf(BigInt(number)) : String(number);
}

// The same as a mark, whose title is the number.
function drawNumber(number, meaning) {
  const text = textOfNumber(number, meaning);
  const mark = make("span", meaning ? `address ${meaning}` : "", text);
  if (meaning) {
    mark.title = `${number}, as ${MEANINGS.get(meaning).title}`;
  }
  return mark;
}

const drawNumbers = (numbers, meanings) =>
  numbers.flatMap((number, place) => [...(place ? [" "] : []), drawNumber(number, meanings[place])]);

class Meanings {
  // `program` is an answer of compile or the flat program of a source.
  constructor(program, source) {
    this.groups = new Groups();
    this.keyCounts = keyCountsOf(program, source);
    const join = (one, other) => this.groups.join(one, other);
    program.instructions.forEach((instruction) => joinAlike(program, instruction, this.keyCounts, join));
    this.fields = new Map();
    const meet = (name, field) => {
      const top = this.groups.top(name);
      this.fields.set(top, (this.fields.get(top) || new Set()).add(field));
    };
    program.instructions.filter(({ kind }) => kind === "field")
      .forEach(({ number, field }) => meet(`${number}.0`, field));
    program.writes.forEach(({ field, value }) => meet(valueName(value), field));
    meet(valueName(program.port), "meta.port");
  }

  // What it means where all fields that it meets mean the same; else null.
  of(name) {
    const fields = [...(this.fields.get(this.groups.top(name)) || [])];
    const [meaning] = fields.map((field) => FIELD_MEANINGS.get(field));
    return meaning && fields.every((field) => FIELD_MEANINGS.get(field) === meaning) ? meaning : null;
  }

  // What so many keys or values of an object mean.
  ofParts(object, part, count) {
    return Array.from({ length: count }, (_, place) => this.of(`${object} ${part} ${place}`));
  }
}

// A constant of an answer of compile, as what it means.
function constantText(answer, value) {
  const { constant } = atValue(answer, value);
  return textOfNumber(constant, answer.meanings.of(valueName(value)));
}
