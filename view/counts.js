"use strict";

// What the page's test asks for: numbers of marks, and some texts, a line for each.

// Each row of the source, as it is shown; for each that has instructions, their numbers by column; and for each that
// declares an object, where that is.
function countsOfSource() {
  const places = COLUMNS.map(([name]) => name);
  const rows = [...drawing.querySelectorAll(".source-row[data-line]")];
  const numbersIn = (row, name) => row.querySelector(`.place.${name}`).dataset.numbers.replaceAll(" ", ",") || "-";
  const ofRow = (row, place) => [
    `row ${place + 1} ${row.querySelector(".line small").textContent || "-"} ${row.querySelector("code").textContent}`,
    ...(row.matches(".filled") ? [`beside ${place + 1} ${places.map((name) => numbersIn(row, name)).join(" ")}`] : []),
    ...(row.dataset.object ? [`stands-${row.dataset.object} ${row.querySelector(".kept-where").textContent}`] : []),
  ];
  return [...rows.flatMap(ofRow), ...countsOfWrapped(rows)];
}

// How many rows of the source take several lines of the screen, and how many of these lose their indentation there.
function countsOfWrapped(rows) {
  const leftsOf = (row) => {
    const text = row.querySelector("code").firstChild;
    const range = document.createRange();
    range.setStart(text, text.data.search(/\S|$/));
    range.setEnd(text, text.data.length);
    return [...range.getClientRects()].map(({ left }) => left);
  };
  const wrapped = rows.map(leftsOf).filter((lefts) => lefts.length > 1);
  const outdented = wrapped.filter(([first, ...others]) => others.some((left) => left < first - 1));
  return [`wrapped ${wrapped.length}`, `outdented ${outdented.length}`];
}

// What a split takes, by the names of limits, and what is said of an edited one.
function countsOfLimits() {
  const textOf = (shape) => [...drawing.querySelectorAll(shape)].map((element) => element.textContent).join(" ");
  return [
    ...[...drawing.querySelectorAll(".gauge")].map((gauge) =>
      `takes-${gauge.dataset.name} ${gauge.querySelector("b").textContent.replaceAll(",", "")}`),
    `broken ${textOf(".broken")}`, `stale ${textOf(".stale")}`,
    `wrong-chips ${drawing.querySelectorAll(".lane .chip.wrong").length}`,
  ];
}

// What stands for addresses and ports in the rows at the end, the changes of packets, and the constants of the split.
function countsOfNumbers() {
  const textsOf = (shape) => [...drawing.querySelectorAll(shape)].map((element) => element.textContent).join(" ");
  const meant = [...MEANINGS.keys()];
  const arrived = [...drawing.querySelectorAll("td.arrived")].map((cell) => cell.textContent);
  return [
    ...meant.map((meaning) => `rows-${meaning} ${textsOf(`.state .address.${meaning}`)}`),
    ...meant.map((meaning) => `changed-${meaning} ${textsOf(`.change .address.${meaning}`)}`),
    `constants ${textsOf(".lane .chip.const .word").split(" ").filter((word) => /[.:]/.test(word)).join(" ")}`,
    `arrived ${arrived.join("; ")}`,
  ];
}

// How many columns aren't in sight, and what is said of them.
function countsOfHidden() {
  return [...drawing.querySelectorAll(".hidden-columns")].flatMap((hint, place) =>
    [`hidden-${place} ${hint.dataset.hidden}`, `hint-${place} ${hint.textContent}`]);
}

// Which stages of which passes were taken, and which commands waited, each with its event; or why nothing is derived.
function countsOfStages() {
  const { derived, failure } = shownRun || {};
  const eventsOf = (name) => (derived ? [...derived.facts[name].keys()].sort((one, other) => one - other) : []);
  const stages = eventsOf("stage").map((event) => ({ event, ...derived.stageAt(event) }));
  const waits = eventsOf("wait").filter((event) => derived.waitAt(event));
  return [
    `taken ${stages.map(({ event, number, pass, stage }) => `${event}:${number}:${pass}:${stage}`).join(" ")}`,
    `waiting ${waits.map((event) => `${event}:${derived.waitAt(event)}`).join(" ")}`, `not-derived ${failure || ""}`,
  ];
}

// The four numbers of each link, and what is drawn of its datagrams.
function countsOfLinks() {
  const links = [...drawing.querySelectorAll(".link")].flatMap((part) => [
    `drawn-${part.dataset.link} ${part.dataset.numbers}`,
    `fates-${part.dataset.link} ${[...part.querySelectorAll(".row")].map((row) => row.dataset.fate).join(" ")}`,
    `marks-${part.dataset.link} ${["given", "out", "lost", "new", "again", "early", "read"].map((name) =>
      `${name} ${part.querySelectorAll(`.mark.${name}`).length}`).join(" ")}`,
  ]);
  return [...links, ...countsOfLinkFacts()];
}

function countsOfLinkFacts() {
  return [...drawing.querySelectorAll(".facts div")].map((pair) => [...pair.children].map((part) => part.textContent))
    .filter(([name]) => name.startsWith("link "))
    .map(([name, told]) => `${name.replace(" ", "-")} ${told.replaceAll(",", "").match(/[0-9]+/g).join(" ")}`);
}

// What the page says of texts that don't belong together.
function countsOfStrangers() {
  const strangers = [...document.querySelectorAll(".stranger")].map((stranger) => stranger.textContent);
  return [`strangers ${strangers.length}`, ...strangers.map((text, place) => `stranger-${place} ${text}`)];
}

// How much room the ways of packets have, how far the page reaches beyond the window, and whether the examples stand
// open.
function countsOfWindow() {
  const tracks = [drawing.querySelector(".rows .row .track"), ...drawing.querySelectorAll(".band .track")];
  const widths = tracks.filter(Boolean).map(({ clientWidth }) => clientWidth);
  const nav = document.querySelector("#examples nav");
  const textsOf = (shape) => [...drawing.querySelectorAll(shape)].map(({ textContent }) => textContent);
  return [
    `track-width ${widths.length === 0 ? "" : Math.min(...widths)}`,
    `too-wide ${document.documentElement.scrollWidth - document.documentElement.clientWidth}`,
    `open-examples ${nav.checkVisibility() ? nav.querySelectorAll("a").length : 0}`,
    `fact-fast ${textsOf(".facts div").filter((fact) => fact.startsWith("never visited")).join(" ")}`,
    `said ${textsOf(".run > p.source, .source-part > p.source").join(" ")}`,
  ];
}

// With ?count the page draws the example after the #, or all of them where there is none, and writes for each how many
// marks it has drawn. With ?count&events=5-20 these events are shown alone.
function countExamples(asked) {
  if (texts.size === 0) {
    writeCounts("nothing", 0, "drawn-at-once 0");
  }
  const named = EXAMPLES.filter(({ name }) => exampleInAddress() === "" || name === exampleInAddress());
  for (const example of named) {
    drawing.replaceChildren();
    drawing.getBoundingClientRect();
    const before = performance.now();
    texts.clear();
    take(Object.entries(example.texts));
    if (shownRun && asked.has("events")) {
      const [from, to] = asked.get("events").split("-").map(Number);
      shownRun.show(from - 0.5, to + 0.5);
    }
    drawing.getBoundingClientRect();
    const milliseconds = performance.now() - before;
    const isMade = `drawn-at-once ${drawing.querySelectorAll(".rows .row").length}`;
    if (shownRun) {
      shownRun.chunks.fillAll();
    }
    writeCounts(example.name, milliseconds, isMade);
  }
}

function writeCounts(name, milliseconds, isMade) {
  const shapes = {
    before: ".lane.before .chip", server: ".lane.server .chip", after: ".lane.after .chip",
    twice: ".lane.server .chip.twice", blocks: ".block-line", tables: ".mark.table", gauges: ".gauge .used",
    over: ".used.over",
    up: ".crossing.up .value", returned: ".crossing.down .value", unknown: ".value.unknown", outputs: ".mark.output",
    rows: ".rows .row", fast: ".rows .mark.fast", admitted: ".rows .mark.admitted", decided: ".rows .mark.decided",
    sent: ".rows .mark.sent", dropped: ".rows .mark.dropped, .rows .mark.drops", open: ".rows .row.open",
    seats: ".mark.seat", slopes: ".slopes path", state: ".state-row", differs: ".differs",
    passing: ".rows .wait.pass", second: ".rows .wait.second", serial: ".serial-row",
    "serial-sent": ".serial-row .sent-text", changes: ".change",
    "source-rows": ".source-row.filled", chooses: ".source-lines .chooses",
    versions: ".versions path.shown", made: ".version-row", others: ".state-row.other",
    held: ".rows .wait.held", kept: ".rows .wait.kept", free: ".rows .wait.free", down: ".rows .wait.down",
    uncertain: ".rows .wait.perhaps",
  };
  // The rows of datagrams are counted apart.
  const rowsOf = (shape) => shape.replaceAll(".rows .", ".run .timeline:not(.datagrams) .rows .");
  const lines = Object.entries(shapes).map(([name, shape]) =>
    `${name} ${drawing.querySelectorAll(rowsOf(shape)).length}`);
  const told = [...drawing.querySelectorAll(".crossing .told-count")].map((element) => element.textContent);
  const stages = [...drawing.querySelectorAll(".lane.switch")].map((lane) => {
    const titles = [...lane.querySelectorAll(".stage h4")].map((title) => Number(title.textContent.split(" ")[1]));
    return Math.max(0, ...titles);
  });
  const ticksOf = (shape) => [...drawing.querySelectorAll(`.events path${shape}`)]
    .map((path) => path.getAttribute("d")).join("").split("M").slice(1).map((tick) => Number(tick.split(" ")[0]));
  lines.push(`ticks ${ticksOf(":not(.drain)").length}`, `drains ${ticksOf(".drain").length}`);
  for (const [letter] of LETTERS) {
    lines.push(`ticks-${letter} ${ticksOf(`.${letter}`).sort((one, other) => one - other).join(" ")}`);
  }
  const placesOf = (row, shape) => [...row.querySelectorAll(shape)]
    .map(({ style }) => `${style.getPropertyValue("--at")}-${style.getPropertyValue("--until")}`);
  const ways = (shape) => [...drawing.querySelectorAll(rowsOf(".rows .row"))]
    .flatMap((row) => placesOf(row, shape).map((place) => `${row.querySelector(".label b").textContent}:${place}`));
  lines.push(`waits ${ways(".wait.held").join(" ")}`, `comes-down ${ways(".wait.down").join(" ")}`,
    `first-passes ${ways(".wait.pass").join(" ")}`, `second-passes ${ways(".wait.second").join(" ")}`,
    `goes-up ${ways(".wait.up").join(" ")}`);
  const list = [...drawing.querySelectorAll(".version-row")].map((row) =>
    [...row.children].map((cell) => cell.textContent).join(","));
  lines.push(`version-list ${list.join(" ")}`);
  lines.push(`stages ${stages.join(" ")}`, `crossing ${told.join(" | ")}`);
  lines.push(`order ${[...drawing.querySelectorAll(".seat b")].map((seat) => seat.textContent).join(" ")}`);
  lines.push(`fields ${document.querySelectorAll(".fields input[type=file]").length}`,
    `links ${document.querySelectorAll("#examples:not([open]) .examples a").length}`);
  lines.push(...countsOfWindow(), ...countsOfStages(), ...countsOfLinks(), ...countsOfSource(), ...countsOfLimits(),
    ...countsOfNumbers(), ...countsOfHidden(), ...countsOfStrangers());
  lines.push(isMade, `refusal ${document.getElementById("refusal").textContent}`,
    `milliseconds ${Math.round(milliseconds)}`);
  const counts = make("pre", "counts", `counts of ${name}\n${lines.join("\n")}\nend of counts\n`);
  counts.hidden = true;
  document.body.append(counts);
}
