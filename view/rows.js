"use strict";

// Draws tables: the versions of a run, and the rows at its end, those of the server and beside them those that the
// switch shows.

const SHOWN_ROWS = 100;

// Fills the body with the rows that the drawers make. Of many rows only the first are shown, until more are asked for.
function fillRows(body, drawers) {
  const more = make("button", "more");
  more.type = "button";
  const showMore = () => {
    body.append(...drawers.slice(body.children.length, body.children.length + SHOWN_ROWS).map((drawRow) => drawRow()));
    more.hidden = body.children.length === drawers.length;
    more.textContent = counted(drawers.length - body.children.length, "more row");
  };
  more.addEventListener("click", showMore);
  showMore();
  return more;
}

// A row for each version that the server made: when, and when it was shown and acknowledged, where that is derived.
function drawVersions(run) {
  const count = run.versions.made.length - 1;
  if (count === 0) {
    return [];
  }
  const body = make("tbody");
  const drawers = run.versions.made.slice(1).map((event, place) => () => drawVersion(run, place + 1));
  const more = fillRows(body, drawers);
  const titles = ["version", "made at event", "by packet", "changes", "shown at event", "acknowledged at event"];
  const head = makeWith("thead", "", [makeWith("tr", "", titles.map((title) => make("th", "", title)))]);
  const part = makeWith("div", "state version-list", [
    make("h3", "", "Versions of the server's rows"), makeWith("table", "", [head, body]), more,
  ]);
  letKeysMove(part, "tbody", "tbody");
  return [part];
}

// A range in words, or what there is to say where there is none.
function rangeCell(range, otherwise, behind) {
  return range ? `${rangeOf(range, "").replace(" to ", " – ")}${behind || ""}` : otherwise;
}

function drawVersion(run, version) {
  const { derived, versions } = run;
  const maker = versions.makers[version];
  const { changes, shown, known } = derived ? derived.ranges
    : { changes: new Map(), shown: new Map(), known: new Map() };
  const none = derived ? "not yet" : "not known";
  const orMore = derived && derived.orMore.has(version) && changes.get(version)
    && changes.get(version).most === derived.most[version] ? " or more" : "";
  const isOpen = derived && known.has(version) && !derived.isKnown(version) ? ", or not yet" : "";
  const bounds = versions.shown[version] === null ? "not known"
    : rangeCell({ least: versions.notYet[version] + 1, most: versions.shown[version] });
  const cells = [
    version, maker ? grouped(versions.made[version]) : "not known", maker ? maker.number : "–",
    rangeCell(changes.get(version), "not known", orMore),
    derived ? rangeCell(shown.get(version), none) : bounds, rangeCell(known.get(version), none, isOpen),
  ].map((text) => make("td", "", text));
  const row = makeWith("tr", "mark version-row", cells);
  row.tabIndex = -1;
  return tellOf(row, () => {
    const waiting = run.report.packets.filter((packet) => packet.way === "slow" && packet.version === version);
    return {
      note: `Version ${version}: ${counted(waiting.length, "output", "outputs")} may go only when it is acknowledged.`,
      lines: maker ? [{ kind: "report", line: maker.line }] : [],
      related: waiting.flatMap(({ number }) => run.relatedTo(number)),
    };
  });
}

// `kind` is the kind of the text that has the rows.
function drawState(report, kind, meanings) {
  const tables = new Map(report.tables.map((part) => [part.name, part]));
  const objects = new Map(report.objects.map((part) => [part.name, part]));
  const names = new Set([...objects.keys(), ...tables.keys()]);
  const parts = [...names].map((name) => drawObject(name, objects.get(name), tables.get(name), kind, meanings));
  const none = make("p", "", "The source declares no object.");
  const state = makeWith("div", "state", [
    make("h3", "", "Rows at the end"),
    ...(meanings || parts.length === 0 ? [] : [make("p", "source",
      "With the source or the split beside the rows, addresses are written as such.")]),
    makeWith("div", "objects", parts.length ? parts : [none]),
  ]);
  letKeysMove(state, "tbody", "tbody");
  return state;
}

// The rows of an object, by key.
function drawObject(name, server, table, kind, meanings) {
  const merged = new Map();
  (server ? server.rows : []).forEach((row) => merged.set(row.key, { server: row }));
  (table ? table.rows : []).forEach((row) => merged.set(row.key, { ...merged.get(row.key), table: row }));
  const all = [...merged.entries()];
  const differing = table ? all.filter(([, rows]) => !isSameRow(rows.server, rows.table)).length : 0;
  const body = make("tbody");
  const parts = partsOf(name, all, meanings);
  const more = fillRows(body, all.map(([key, rows]) => () => drawRow(key, rows, table !== undefined, kind, parts)));
  const titleOf = (title, told) => makeWith("th", "", [title, ...(told ? [make("small", "", told)] : [])]);
  const isSerial = kind === "run";
  const titles = [titleOf("key", parts.told("keys")), titleOf(isSerial ? "row" : "server", parts.told("values")),
    ...(table ? [titleOf("switch", parts.told("values"))] : [])];
  const onServer = `${name}: ${counted(server ? server.rows.length : 0, "row")}${isSerial ? "" : " on the server"}`;
  const onSwitch = !table ? "" : `, ${grouped(table.rows.length)} shown by the switch: ${
    differing === 0 ? "the same" : counted(differing, "differs", "differ")}`;
  return makeWith("div", "object", [
    makeWith("table", "", [
      make("caption", "", onServer + onSwitch), makeWith("thead", "", [makeWith("tr", "", titles)]), body,
    ]),
    more,
  ]);
}

// What the keys and the values of an object's rows mean.
function partsOf(name, rows, meanings) {
  const [first] = rows.map(([key, { server, table }]) => [numbersOf(key), numbersOf((server || table).values)]);
  const [keys, values] = (first || [[], []]).map((numbers, place) =>
    (meanings ? meanings.ofParts(name, place === 0 ? "key" : "value", numbers.length) : []));
  const told = (part) => {
    const list = part === "keys" ? keys : values;
    const titles = list.map((meaning) => (meaning ? MEANINGS.get(meaning).title : "number"));
    return list.some(Boolean) ? titles.join(", ") : "";
  };
  return { keys, values, told };
}

// Whether the switch shows under the key what the server has.
const isSameRow = (server, table) => server !== undefined && table !== undefined && server.values === table.values;

function drawRow(key, { server, table }, isCopied, kind, parts) {
  const isSame = !isCopied || isSameRow(server, table);
  const valuesOf = (row) => (row ? drawNumbers(numbersOf(row.values), parts.values) : ["no row"]);
  const cells = [makeWith("td", "key", key ? drawNumbers(numbersOf(key), parts.keys) : ["–"]),
    makeWith("td", "", valuesOf(server))];
  if (isCopied) {
    cells.push(makeWith("td", isSame ? "" : "differs", valuesOf(table)));
  }
  const row = makeWith("tr", isSame ? "mark state-row" : "mark state-row other", cells);
  row.tabIndex = -1;
  return tellOf(row, () => ({
    note: isSame ? "" : "The switch doesn't show what the server has.",
    lines: [server, table].filter(Boolean).map(({ line }) => ({ kind, line })),
  }));
}
