"use strict";

// Draws what the schedule by hand shows: the buttons of the events, where each packet is, how far the commands have
// come, and what each event did.

const SHOWN_NOTES = 300;
const SHOWN_OUT = 60;
const SHOWN_COMMANDS = 40;

// The buttons of the events: those that are idle here are greyed.
function drawEvents(view) {
  const { world } = view;
  document.getElementById("fine").checked = view.schedule.fine;
  const buttons = EVENTS.filter(([letter]) => letter !== "s" || view.schedule.fine).map(([letter, word, told]) => {
    const items = LISTS[letter] ? world[LISTS[letter]] : [0];
    const item = Math.max(0, items.findIndex((_, place) => view.isLive(letter, place)));
    const isLive = view.isLive(letter, item) === true;
    const event = lineOfEvent({ letter, item });
    const button = makeButton("", () => attemptSteps(() => view.perform(event)), isLive ? told
      : view.isDrained ? "nothing comes after `drain`" : world.whyIdle({ letter, item }));
    button.append(make("b", "", event), make("span", "", word));
    button.dataset.letter = letter;
    button.disabled = !isLive;
    return button;
  });
  document.getElementById("events").replaceChildren(...buttons);
  document.getElementById("place").textContent = `event ${grouped(Math.min(view.at, view.length))} of ${
    grouped(view.length)}`;
  [["steps-first", view.at > 0], ["steps-back", view.at > 0], ["steps-next", view.at < view.length],
    ["steps-last", view.at < view.length], ["steps-drain", !view.isDrained]].forEach(([name, isOpen]) => {
    document.getElementById(name).disabled = !isOpen;
  });
}

// A packet in one of the lists; a click takes its event.
function drawItem(view, letter, item, number, told) {
  const event = `${letter} ${item}`;
  const button = makeButton("", () => attemptSteps(() => view.perform(event)), `event ${event}`);
  button.className = `packet ${letter}`;
  button.dataset.event = event;
  button.append(make("b", "", number), make("small", "", told));
  return button;
}

function drawBox(classes, title, told, items, rows) {
  return makeWith("div", `place-box ${classes}`, [
    makeWith("h4", "", [title, make("small", "", told)]), makeWith("div", "items", items),
    ...(rows || []).map(({ name, rows: all }) => make("small", "kept", `${name}: ${counted(all.length, "row")}`)),
  ]);
}

// A packet that is out, with what became of it.
function drawOut({ number, way, port, released }) {
  const chip = makeWith("span", `packet out ${way}`, [
    make("b", "", number), make("small", "", port === null ? "✕" : `▶ ${port}`),
  ]);
  chip.title = `${way}, ${port === null ? "dropped" : `sent by port ${port}`} at event ${released}`;
  return chip;
}

// The packets that are out, in the order in which they left.
function packetsOut({ isDrained, world }) {
  return isDrained ? [...world.report.packets].sort((one, other) => one.released - other.released)
    : world.out.map((number) => world.packet(number));
}

// The packets on their way, list by list; after `drain` there are none.
function drawLists(view) {
  const { world, isDrained } = view;
  const waitOf = (number) => {
    const { version } = world.packet(number);
    return version > 0 ? `waits for v${version}` : "";
  };
  const tellers = { u: () => "", h: waitOf, d: () => "", s: ({ side, left }) => `${side}, ${left} left` };
  return Object.fromEntries(Object.entries(tellers).map(([letter, tellOne]) =>
    [LISTS[letter], isDrained ? [] : world[LISTS[letter]].map((one, item) =>
      drawItem(view, letter, item, one.number === undefined ? one : one.number, tellOne(one)))]));
}

// Where each packet is.
function drawWorld(view) {
  const { world, isDrained } = view;
  const { report } = world;
  const coming = isDrained ? 0 : report.total - world.next;
  const lists = drawLists(view);
  const wrong = isDrained || world.isTold ? [] : [make("p", "refusal", "The world that is drawn isn't the one of the "
    + "report. This is a fault of the page.")];
  document.getElementById("world").replaceChildren(...wrong,
    drawBox("coming", "arriving", coming === 0 ? "none left" : `next: packet ${world.next}`, coming === 0 ? []
      : [make("span", "packet more", `${grouped(coming)} to come`)]),
    drawBox("switch", "switch", `lookups see version ${report.visible}`, lists.passes, report.tables),
    drawBox("up", "up ▶", "sent to the server", lists.up),
    drawBox("server", "server", `version ${report.version}`, lists.held, report.objects),
    drawBox("down", "◀ down", "on the way back", lists.down),
    drawBox("out", "out", "as they came out", packetsOut(view).slice(-SHOWN_OUT).map(drawOut)),
    make("div", "commands"));
}

// Greys the packets whose events are idle here, and says which outputs may go.
function markItems(view) {
  document.querySelectorAll("#world button[data-event]").forEach((button) => {
    const [letter, item] = button.dataset.event.split(" ");
    const isLive = view.isLive(letter, Number(item)) === true;
    button.disabled = !isLive;
    if (letter === "h" && isLive) {
      button.lastChild.textContent = "may go";
    }
  });
}

// How far the commands have come.
function drawCommands(view) {
  const place = document.querySelector("#world .commands");
  if (!place) {
    return;
  }
  const { world, live } = view;
  const waiting = live ? live.c : 0;
  const parts = view.isDrained ? [["known", "all are acknowledged", 0]] : [
    ["known", "acknowledged", world.known], ["applied", "applied", world.applied - world.known],
    ["sent", "on their way", world.sent - world.applied], ["waiting", "to be sent", waiting],
  ];
  const cells = parts.flatMap(([name, title, count]) =>
    Array.from({ length: Math.min(count, SHOWN_COMMANDS) }, () => makeTitled("i", name, title)));
  const told = parts.map(([, title, count]) => (view.isDrained ? title : `${grouped(count)} ${title}`)).join(" · ");
  place.replaceChildren(make("h4", "", "commands to the switch"), makeWith("span", "cells", cells),
    make("small", "", told));
}

function makeTitled(tag, classes, title) {
  const element = make(tag, classes);
  element.title = title;
  return element;
}

// What each event did; a click goes to it. The first output that isn't let go is explained.
function drawNotes(view) {
  const { notes } = view.world;
  const first = Math.max(0, notes.length - SHOWN_NOTES);
  const items = notes.slice(first).map((event, place) => {
    const number = first + place + 1;
    const button = makeButton("", () => attemptSteps(() => view.goTo(number)), "Go to this event");
    button.append(make("small", "", number), make("code", "", lineOfEvent(event)),
      make("span", "", event.isIdle ? `idle: ${event.note}` : event.note));
    return makeWith("li", event.isIdle ? "idle" : "", [button]);
  });
  const range = `${grouped(notes.length + 1)} to ${grouped(view.world.report.events)}`;
  const drained = view.isDrained ? [makeWith("li", "", [make("span", "drained", `drain: events ${range} went by `
    + "themselves, until every packet was out and every command acknowledged")])] : [];
  const all = makeWith("ol", "", [...items, ...drained]);
  document.getElementById("notes").replaceChildren(...whyItWaits(view.world), all);
  const list = document.querySelector("#notes ol");
  list.scrollTop = list.scrollHeight;
}

// Why the first output that was asked for too early has to wait.
function whyItWaits({ notes }) {
  const place = notes.findIndex(({ letter, isIdle, note }) => letter === "h" && isIdle && note.includes("waits for"));
  if (place < 0) {
    return [];
  }
  return [makeWith("p", "why-waits", [make("b", "", `Event ${place + 1}, h ${notes[place].item}: `), `${
    notes[place].note}. A naive splitter would let it out here. Then a packet that answers it could come to the switch `
    + "before the new rows do, and be treated as if this one had never come; no order of the packets explains that. So "
    + "it waits until the switch has acknowledged what it depends on."])];
}
