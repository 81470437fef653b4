"use strict";

// Schedules and traces to begin with: the order of a naive splitter, random schedules, and packets of flows.

// Numbers from a seed, each at least 0 and below 1.
function randomFrom(seed) {
  let state = seed >>> 0;
  return () => {
    state = (state + 0x6d2b79f5) >>> 0;
    let mixed = Math.imul(state ^ (state >>> 15), state | 1);
    mixed ^= mixed + Math.imul(mixed ^ (mixed >>> 7), mixed | 61);
    return ((mixed ^ (mixed >>> 14)) >>> 0) / 4294967296;
  };
}

// As a naive splitter would: each packet goes through at once, and the switch hears of it later.
function naiveSchedule(packets) {
  const each = Array.from({ length: packets }, (_, number) =>
    `# packet ${number}: admitted, run, and out at once\na\nu 0\nh 0\nd 0\n`);
  return `${each.join("")}# only now the switch gets to know what has changed\ndrain\n`;
}

const RANDOM_EVENTS = { plain: "aaauucccwwwkkkhhdd", fine: "aaaussssssssucccwwwkkkhhdd", links: "aauucwkhdxxxxyyyyzz" };

// A random schedule of so many events.
function randomSchedule(seed, count, kind) {
  const random = randomFrom(seed);
  const pick = (list) => list[Math.floor(random() * list.length)];
  const eventOf = (letter) => {
    const item = random() < 0.7 ? 0 : Math.floor(random() * 4);
    if ("xyz".includes(letter)) {
      return `${letter} ${pick(["up", "down", "ctl", "ack"])} ${Math.floor(random() * 6)}`;
    }
    return "acwk".includes(letter) ? letter : `${letter} ${item}`;
  };
  const events = Array.from({ length: count }, () => eventOf(pick(RANDOM_EVENTS[kind])));
  const first = `# ${count} events from the seed ${seed}\n${kind === "fine" ? "fine\n" : ""}`;
  return `${first}${events.join("\n")}\n${kind === "links" ? "" : "drain\n"}`;
}

const hexOf = (number, digits) => number.toString(16).padStart(digits, "0");

// The Internet checksum of bytes in hexadecimal digits.
function checksumOf(hex) {
  let sum = 0;
  for (let at = 0; at < hex.length; at += 4) {
    sum += parseInt(hex.slice(at, at + 4).padEnd(4, "0"), 16);
  }
  while (sum > 0xffff) {
    sum = (sum & 0xffff) + (sum >>> 16);
  }
  return hexOf(0xffff - sum, 4);
}

// A TCP segment without data, with its checksums, in an Ethernet frame.
function segmentOf({ from, to, sport, dport, flags }) {
  const ports = `${hexOf(sport, 4)}${hexOf(dport, 4)}`;
  const tcp = (sum) => `${ports}000000010000000050${hexOf(flags, 2)}ffff${sum}0000`;
  const addresses = `${hexOf(from, 8)}${hexOf(to, 8)}`;
  const ip = (sum) => `45000028000040004006${sum}${addresses}`;
  const tcpSum = checksumOf(`${addresses}00060014${tcp("0000")}`);
  return `0200000000010200000000020800${ip(checksumOf(ip("0000")))}${tcp(tcpSum)}`;
}

const TCP_SYN = 2;
const TCP_ACK = 16;
const FIRST_HOST = 0x0a000001;
const SERVER = 0xc6336407;

// Packets of flows, in rounds: in each a packet of each flow. Answers, where they are wanted, follow their packets,
// from the other side. Returns { trace, isNew } where isNew says of each packet whether its flow is new.
function workloadOf({ flows, rounds, port, answerPort }) {
  const lines = [];
  const isNew = [];
  for (let round = 0; round < rounds; round += 1) {
    for (let flow = 0; flow < flows; flow += 1) {
      const ends = { from: FIRST_HOST + (flow % 250), to: SERVER, sport: 5000 + Math.floor(flow / 250), dport: 80 };
      lines.push(`${port} ${segmentOf({ ...ends, flags: round === 0 ? TCP_SYN : TCP_ACK })}\n`);
      isNew.push(round === 0);
      if (answerPort !== null) {
        const back = { from: ends.to, to: ends.from, sport: ends.dport, dport: ends.sport };
        lines.push(`${answerPort} ${segmentOf({ ...back, flags: round === 0 ? TCP_SYN | TCP_ACK : TCP_ACK })}\n`);
        isNew.push(round === 0);
      }
    }
  }
  return { trace: lines.join(""), isNew };
}
