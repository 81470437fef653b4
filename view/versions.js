"use strict";

// What a report alone makes certain of versions, and whether a schedule can be the one of the report.

// For each version from 1 on: the event at which the server made it, the last event at which the switch can't have
// shown it yet, and the first one at which it must have, or null where the report doesn't say that it ever did.
function versionsOf(report) {
  const greatest = Math.min(report.version, report.packets.length);
  const made = new Array(greatest + 1).fill(null);
  const makers = new Array(greatest + 1).fill(null);
  const notYet = new Array(greatest + 1).fill(0);
  const shown = new Array(greatest + 1).fill(null);
  const least = (list, version, event) => {
    list[version] = list[version] === null ? event : Math.min(list[version], event);
  };
  for (const packet of report.packets.filter(({ version }) => version <= greatest)) {
    const isFirst = made[packet.version] === null || packet.decided < made[packet.version];
    if (packet.way === "slow" && packet.version > 0 && isFirst) {
      made[packet.version] = packet.decided;
      makers[packet.version] = packet;
    }
    // A fast packet has the version that the switch showed as it came in.
    if (packet.way === "fast" && packet.version < greatest) {
      notYet[packet.version + 1] = Math.max(notYet[packet.version + 1], packet.admitted);
    }
    if (packet.released) {
      least(shown, packet.version, packet.way === "fast" ? packet.admitted : packet.released);
    }
  }
  least(shown, Math.min(report.visible, greatest), report.events);
  for (let version = 1; version <= greatest; version += 1) {
    notYet[version] = Math.max(notYet[version], notYet[version - 1], made[version] || 0);
  }
  for (let version = greatest - 1; version > 0; version -= 1) {
    if (shown[version + 1] !== null) {
      least(shown, version, shown[version + 1]);
    }
  }
  return { made, makers, notYet, shown };
}

// Whether stages of passes were events of their own.
const isFine = (report) => report.packets.some(({ way, admitted, released }) =>
  way === "pass" || (way === "fast" && admitted < released));

// What the report says of events: of each that admits, decides or releases a packet, which of these and the packet. An
// event that admits a fast packet and releases it at once counts as its admission.
function toldEvents(report) {
  const told = new Map();
  for (const packet of report.packets) {
    const { way, admitted, decided, released } = packet;
    told.set(admitted, { what: "admitted", packet });
    if (way === "slow") {
      told.set(decided, { what: "decided", packet });
    }
    if (released && admitted < released) {
      told.set(released, { what: "released", packet });
    }
  }
  return told;
}

// The letters of the events that can admit, decide and release a packet.
function lettersOf({ way, admitted, released }, isFineSchedule) {
  if (way === "fast") {
    const end = admitted === released ? "a" : "s";
    return { admitted: "a", decided: end, released: end };
  }
  return { admitted: "a", decided: "u", released: isFineSchedule ? "ds" : "d" };
}

// Null where nothing speaks against the report being one of the schedule; else what does.
function strangenessOf(report, schedule) {
  const total = schedule.events.length;
  if (report.events < total || (report.events > total && !schedule.drain)) {
    return `the report has ${counted(report.events, "event")}, and the schedule ${grouped(total)}`;
  }
  if (isFine(report) && !schedule.fine) {
    return "in the report stages of passes are events of their own, and in the schedule they aren't";
  }
  for (const packet of report.packets) {
    const letters = lettersOf(packet, schedule.fine);
    const strange = Object.keys(letters).find((name) => {
      const event = packet[name] && schedule.events[packet[name] - 1];
      return event && !letters[name].includes(event.letter);
    });
    if (strange) {
      return `packet ${packet.number} was ${strange} at event ${packet[strange]}, which is another one in the schedule`;
    }
  }
  return null;
}
