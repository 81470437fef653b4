"use strict";

// Draws the strips above the ways of the packets: the events of the schedule, and the versions.

const LETTERS = [
  ["a", "admit"], ["s", "take a stage"], ["u", "run"], ["c", "send command"], ["w", "apply command"],
  ["k", "acknowledge"], ["h", "let go"], ["d", "release"],
];

// What the events of a letter do. Where a second pass takes stages, `d` only begins it.
function titleOf(run, letter) {
  const isBegin = letter === "d" && run.isFine && !(run.derived && run.derived.stages.after === 0);
  return isBegin ? "bring down" : LETTERS.find(([other]) => other === letter)[1];
}

// How many marks of one letter a strip has at most.
const DRAWN_EVENTS = 8000;

// A strip: its label, what stands in its track, what stands after it, and how many lines high it is.
function drawBand(label, inTrack, behind, lines) {
  const band = makeWith("div", "band", [label, makeWith("span", "track", inTrack), make("span", "verdict", behind)]);
  band.style.setProperty("--lines", lines);
  return band;
}

// Lets the strip be gone through by the pointer, or by the arrow keys, event by event.
function letEventsBeTold(band, run, teller) {
  const track = band.querySelector(".track");
  const cursor = make("span", "cursor");
  let event = 1;
  track.append(cursor);
  track.tabIndex = 0;
  const goTo = (next) => {
    event = Math.max(1, Math.min(run.report.events, next));
    cursor.style.setProperty("--at", event);
    tell(track);
  };
  tellOf(track, () => teller(event));
  track.addEventListener("pointermove", (moved) => {
    const box = track.getBoundingClientRect();
    goTo(Math.round(run.from + ((moved.clientX - box.left) / box.width) * (run.to - run.from)));
  });
  track.addEventListener("keydown", (pressed) => {
    const step = { ArrowLeft: -1, ArrowRight: 1 }[pressed.key];
    if (step) {
      pressed.preventDefault();
      goTo(event + step);
    }
  });
}

// The letter and the item of an event, by the schedule or by the rule of drain; or null where that isn't certain.
function eventOf(run, event) {
  const given = run.schedule.events[event - 1];
  if (given || !run.derived) {
    return given || null;
  }
  const letter = run.derived.letterOf(event);
  return letter && { letter, item: 0, line: null };
}

function tellEvent(run, event) {
  const { report, derived, told } = run;
  const performed = eventOf(run, event);
  const done = told.get(event);
  const drain = event > run.schedule.events.length;
  const byDrain = drain ? ", of drain" : "";
  if (!performed) {
    const word = `Event ${event} is one of drain${derived ? "; which one isn't certain" : ""}.`;
    const lines = done ? [{ kind: "report", line: done.packet.line }] : [];
    return { note: event <= report.events ? word : "", lines };
  }
  const packet = done ? done.packet.number : run.movedAt(event);
  const { letter, item, line } = performed;
  const title = titleOf(run, letter);
  const spelled = "suhd".includes(letter) ? `${letter} ${item}` : letter;
  const ofPacket = packet === undefined ? "" : `, packet ${packet}`;
  const state = derived ? derived.stateOf(event) : "done";
  const idle = { done: "", idle: " It was idle.", perhaps: " It isn't certain whether it was idle." }[state];
  return {
    note: `Event ${event}, ${spelled}${byDrain}: ${title}${ofPacket}.${idle}${run.stageNote(event)}${
      run.versionNote(event)}`,
    lines: [{ kind: "schedule", line }, ...(done ? [{ kind: "report", line: done.packet.line }] : [])],
    related: packet === undefined ? [] : run.relatedTo(packet),
  };
}

// The events by what `nameOf` says of them, but for those that are nearer than a gap to the one before.
function ticksOf(events, gap, nameOf) {
  const ticks = new Map();
  let last = -gap;
  for (const event of events) {
    if (event - last >= gap) {
      ticks.set(nameOf(event), ticks.get(nameOf(event)) || []);
      ticks.get(nameOf(event)).push(event);
      last = event;
    }
  }
  return ticks;
}

// The events of the schedule, and those of drain as far as they are derived, a line for each letter.
function drawScheduleStrip(run) {
  const { schedule, derived, report } = run;
  const own = schedule.events.length;
  const places = new Map(LETTERS.map(([letter]) => [letter, []]));
  for (let event = 1; event <= (derived ? report.events : own); event += 1) {
    const performed = eventOf(run, event);
    if (performed) {
      places.get(performed.letter).push(event);
    }
  }
  const used = LETTERS.filter(([letter]) => places.get(letter).length > 0);
  const picture = makeVector("svg", { preserveAspectRatio: "none", class: "events" });
  if (report.events > own) {
    picture.append(makeVector("rect", {
      x: own + 0.5, y: 0, width: report.events - own, height: Math.max(1, used.length), class: "drain",
    }));
  }
  const fill = (from, to) => {
    picture.querySelectorAll("path").forEach((path) => path.remove());
    used.forEach(([letter], place) => {
      const isShown = (event) => event >= from && event <= to;
      const ticks = ticksOf(places.get(letter).filter(isShown), (to - from) / DRAWN_EVENTS, (event) =>
        (event > own ? "drain" : derived ? derived.stateOf(event) : "done"));
      ticks.forEach((some, name) => picture.append(makeVector("path", {
        d: some.map((event) => `M${event} ${place + 0.15}v.7`).join(""), class: `${name} ${letter}`,
      })));
    });
  };
  run.pictures.push({ picture, heightsOf: () => [0, Math.max(1, used.length)], fill });
  const names = used.map(([letter]) => makeWith("span", "", [make("b", "", letter), ` ${titleOf(run, letter)}`]));
  const behind = !schedule.drain ? "" : derived && report.events > own ? "▒ by drain, derived" : "then drain";
  const band = drawBand(makeWith("span", "label letters", names), [picture], behind, Math.max(1, used.length));
  letEventsBeTold(band, run, (event) => tellEvent(run, event));
  return band;
}

// A line of steps: at each version's event it rises to that version. Versions without an event are passed over.
function stepsOf(events, version, end) {
  const points = [[0.5, 0]];
  for (let at = 1; at <= version; at += 1) {
    if (events[at] !== null) {
      points.push([events[at] + 0.5, points[points.length - 1][1]], [events[at] + 0.5, at]);
    }
  }
  points.push([end, points[points.length - 1][1]]);
  return points.map(([event, at]) => `${event} ${version - at + 0.1}`);
}

// The versions: the one that the server has, what is certain of the one that the switch shows, and where it is derived
// the one that the server knows to be shown.
function drawVersionStrip(run) {
  const { made, notYet, shown } = run.versions;
  const version = made.length - 1;
  const end = run.report.events + 0.5;
  const picture = makeVector("svg", { preserveAspectRatio: "none", class: "versions" });
  const soonest = notYet.map((event, at) => (at > 0 && at <= run.report.visible ? event : null));
  const [madeSteps, shownSteps, soonestSteps] = [made, shown, soonest].map((events) => stepsOf(events, version, end));
  const isSure = soonest.every((event, at) => event === null || event + 1 === shown[at]);
  const keys = [["made-key", "- -", "server's version"], ["shown-key", "—", "shown by the switch"]];
  if (!isSure || !run.derived) {
    const around = [...shownSteps, ...soonestSteps.reverse()].join("L");
    picture.append(makeVector("path", { class: "perhaps", d: `M${around}Z` }));
    keys[1][2] = "shown for certain";
    keys.push(["perhaps-key", "▨", "shown perhaps"]);
  }
  picture.append(makeVector("path", { class: "made", d: `M${madeSteps.join("L")}` }));
  if (run.derived) {
    const known = made.map((event, at) => (run.derived.ranges.known.get(at) || { most: null }).most);
    picture.append(makeVector("path", { class: "known", d: `M${stepsOf(known, version, end).join("L")}` }));
    keys.push(["known-key", "···", "acknowledged"]);
  }
  picture.append(makeVector("path", { class: "shown", d: `M${shownSteps.join("L")}` }));
  const signs = keys.map(([name, sign, text]) => makeWith("span", "", [make("b", name, sign), ` ${text}`]));
  const band = drawBand(makeWith("span", "label", signs), [picture], "", 5);
  const heightsOf = (from, to) => {
    const [low, high] = [versionsAfter(run, from).least, Math.max(1, versionsAfter(run, to).server)];
    band.querySelector(".verdict").textContent = `versions ${grouped(low)} to ${grouped(high)}`;
    return [version - high, high - low + 0.2];
  };
  run.pictures.push({ picture, heightsOf });
  letEventsBeTold(band, run, (event) => tellVersion(run, event));
  return band;
}

// After an event: the server's version, and the least and the greatest that the switch may show.
function versionsAfter(run, event) {
  const { made, notYet, shown } = run.versions;
  const greatest = (events, fits) =>
    events.reduce((most, at, version) => (version > 0 && at !== null && fits(at, version) ? version : most), 0);
  return {
    server: greatest(made, (at) => at <= event),
    least: greatest(shown, (at) => at <= event),
    most: greatest(notYet, (at, version) => at < event && version <= run.report.visible),
  };
}

function tellVersion(run, event) {
  const { server, least, most } = versionsAfter(run, event);
  const told = least >= most ? `version ${least}` : `a version from ${least} to ${most}`;
  return {
    note: `After event ${event} the server is at version ${server}, and the switch shows ${told}.`,
    lines: [{ kind: "report", line: run.report.versionLine }],
  };
}
