"use strict";

// Reads the fields of a packet from its bytes, by the table of fields in docs/language.md.

// For each header its fields with their first bits; each is as wide as FIELD_WIDTHS says.
const HEADERS = new Map([
  ["eth", [["eth.dst", 0], ["eth.src", 48], ["eth.type", 96]]],
  ["vlan", [["vlan.pcp", 0], ["vlan.dei", 3], ["vlan.id", 4]]],
  ["ip", [["ip.version", 0], ["ip.ihl", 4], ["ip.tos", 8], ["ip.len", 16], ["ip.id", 32], ["ip.flags", 48],
    ["ip.frag", 51], ["ip.ttl", 64], ["ip.proto", 72], ["ip.sum", 80], ["ip.src", 96], ["ip.dst", 128]]],
  ["tcp", [["tcp.sport", 0], ["tcp.dport", 16], ["tcp.seq", 32], ["tcp.ack", 64], ["tcp.off", 96], ["tcp.res", 100],
    ["tcp.flags", 104], ["tcp.win", 112], ["tcp.sum", 128], ["tcp.urg", 144]]],
  ["udp", [["udp.sport", 0], ["udp.dport", 16], ["udp.len", 32], ["udp.sum", 48]]],
]);

// The number in so many bits of a packet in hexadecimal digits, from a bit on.
function bitsAt(hex, bit, width) {
  const [first, last] = [Math.floor(bit / 4), Math.ceil((bit + width) / 4)];
  const digits = BigInt(`0x${hex.slice(first, last)}`);
  return Number((digits >> BigInt(4 * last - bit - width)) & ((1n << BigInt(width)) - 1n));
}

// Where each header of the packet begins, in bytes.
function headersOf(hex) {
  const size = hex.length / 2;
  const starts = new Map();
  const word = (byte) => bitsAt(hex, 8 * byte, 16);
  if (size < 14) {
    return starts;
  }
  starts.set("eth", 0);
  const isTagged = word(12) === 0x8100 && size >= 18;
  if (isTagged) {
    starts.set("vlan", 14);
  }
  const start = isTagged ? 18 : 14;
  if (word(start - 2) !== 0x0800 || size < start + 20 || bitsAt(hex, 8 * start, 4) !== 4) {
    return starts;
  }
  const length = 4 * bitsAt(hex, 8 * start + 4, 4);
  if (length < 20 || size < start + length) {
    return starts;
  }
  starts.set("ip", start);
  const protocol = bitsAt(hex, 8 * start + 72, 8);
  const [name, least] = { 6: ["tcp", 20], 17: ["udp", 8] }[protocol] || ["", 0];
  if (name && bitsAt(hex, 8 * start + 51, 13) === 0 && size >= start + length + least) {
    starts.set(name, start + length);
  }
  return starts;
}

// The fields that stand in the packet, with their numbers.
function fieldsOf(hex) {
  const fields = new Map();
  headersOf(hex).forEach((start, header) => HEADERS.get(header).forEach(([field, bit]) =>
    fields.set(field, bitsAt(hex, 8 * start + bit, FIELD_WIDTHS.get(field)))));
  return fields;
}

const fieldText = (fields, field) => textOfNumber(fields.get(field), FIELD_MEANINGS.get(field));

// The packet in a few words: who sends it to whom.
function summaryOf(hex) {
  const fields = fieldsOf(hex);
  const part = (field) => fieldText(fields, field);
  if (!fields.has("eth.dst")) {
    return `${counted(hex.length / 2, "byte")}, no Ethernet header`;
  }
  const tag = fields.has("vlan.id") ? `VLAN ${part("vlan.id")}, ` : "";
  const transport = ["tcp", "udp"].find((name) => fields.has(`${name}.sport`));
  if (transport) {
    return `${tag}${transport.toUpperCase()} ${part("ip.src")}:${part(`${transport}.sport`)} → ${
      part("ip.dst")}:${part(`${transport}.dport`)}`;
  }
  return fields.has("ip.src") ? `${tag}IPv4 ${part("ip.src")} → ${part("ip.dst")}, protocol ${part("ip.proto")}`
    : `${tag}${part("eth.src")} → ${part("eth.dst")}, type ${part("eth.type")}`;
}

// The fields in which the packet that left differs from the one that arrived: [{ field, before, after }].
function changesOf(arrived, left) {
  const [before, after] = [fieldsOf(arrived), fieldsOf(left)];
  return [...after].filter(([field, number]) => before.get(field) !== number)
    .map(([field]) => ({ field, before: before.get(field), after: after.get(field) }));
}

function drawChange({ field, before, after }) {
  const meaning = FIELD_MEANINGS.get(field);
  return makeWith("span", "change", [`${field} `, drawNumber(before, meaning), " → ", drawNumber(after, meaning)]);
}
