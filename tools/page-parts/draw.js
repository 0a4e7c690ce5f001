// Draws the part of the picture and of the schedule that is in view.

const ROW = 20, HALF = ROW / 2, GUTTER = 215;
const MARGIN = 150; // behind the last lane, for its labels
const MOST_NODES = 3000; // of the picture; the rest of the page has its own bounds
const SVG = "http://www.w3.org/2000/svg";

const byId = (id) => document.getElementById(id);
const picked = { event: -1, message: -1, cones: null };

// Characters that nobody sees, or that turn the order of the others, are written out.
const HIDDEN = /[\u0000-\u0008\u000a-\u001f\u007f-\u009f\u00ad\u061c\u180e\u200b-\u200f\u2028-\u202e\u2060-\u206f\ufeff\ufff9-\ufffb\ud800-\udfff]|[\u{e0000}-\u{e007f}]/gu;
const visible = (text) => String(text).replace(HIDDEN, (it) => "\\u" + it.codePointAt(0).toString(16).padStart(4, "0"));
const shortened = (text, most) => (text.length <= most ? text : text.slice(0, Math.max(1, most - 1)) + "\u2026");

function html(tag, className, text) {
  const made = document.createElement(tag);
  if (className) made.className = className;
  if (text !== undefined) made.textContent = visible(text);
  return made;
}

function svg(tag, attributes, text) {
  const made = document.createElementNS(SVG, tag);
  for (const [name, value] of Object.entries(attributes || {})) made.setAttribute(name, value);
  if (text !== undefined) made.textContent = visible(text);
  return made;
}

// ---- lanes

let laneWidth = 150, lanes = new Map(), pictureWidth = 0;

function placeLanes() {
  const room = byId("middle").clientWidth - GUTTER - 40 - MARGIN;
  laneWidth = Math.max(96, Math.min(270, Math.floor(room / Math.max(1, parties.length - 1))));
  lanes = new Map(parties.map((it, at) => [it, GUTTER + 40 + at * laneWidth]));
  pictureWidth = Math.max(GUTTER + 40 + (parties.length - 1) * laneWidth + MARGIN, byId("middle").clientWidth);
  const head = byId("lanes");
  head.replaceChildren(html("span", "what", "event"));
  for (const [party, x] of lanes) {
    const name = html("span", "", party);
    name.style.left = x + "px";
    name.title = party[0] === "c" ? "client " + party.slice(1) : "server " + party.slice(1);
    head.append(name);
  }
  head.style.width = pictureWidth + "px";
}

const yOf = (row) => row * ROW + HALF;

// How wide a letter of a label is on this machine, on average.
const letterWidth = (() => {
  const brush = document.createElement("canvas").getContext("2d");
  const sample = "the client still has an outstanding command 0123456789";
  if (!brush) return 6.2;
  brush.font = "11px system-ui, sans-serif";
  return brush.measureText(sample).width / sample.length || 6.2;
})();
const mostLetters = (width) => Math.max(4, Math.floor((width - 14) / letterWidth));

// ---- signs

const CIRCLE = "m-4 0a4 4 0 1 0 8 0a4 4 0 1 0 -8 0z";
const CROSS = "m-6 -4l2 -2l4 4l4 -4l2 2l-4 4l4 4l-2 2l-4 -4l-4 4l-2 -2l4 -4z";
const SQUARE = "m-5 -5h10v10h-10z";
const STAR = "m0 -7l2 5l5 2l-5 2l-2 5l-2 -5l-5 -2l5 -2z";
const SIGNS = {
  commit: ["m0 -8l8 8l-8 8l-8 -8z", "good"], committed: ["m0 -6l6 6l-6 6l-6 -6z", "good"],
  aborted: [CROSS, "bad"], stopped: [CROSS, "bad"], broke: [CROSS, "bad"], lost: [CROSS, "bad"], ignored: [CROSS, ""],
  up: ["m-6 5l6 -10l6 10z", ""], down: ["m-6 -5l6 10l6 -10z", "bad"], outside: [STAR, "warn"],
  refused: [SQUARE, "warn"], "event-refused": [SQUARE, "warn"], waiting: [SQUARE, "warn"],
};
const FAULTY = new Set(["arm", "decay", "revive", "crash"]);
const BARS = { begun: "good", opened: "good", did: "good", read: "good", committed: "good", refused: "warn", aborted: "bad", replaced: "open", unanswered: "open" };

// ---- the picture

let drawn = { first: -1, last: -1 };

function drawPicture() {
  const pane = byId("middle"), canvas = pane.querySelector(".canvas");
  canvas.style.height = layout.rows.length * ROW + 20 + "px";
  canvas.style.width = pictureWidth + "px";
  const first = Math.max(0, Math.floor(pane.scrollTop / ROW) - 15);
  const last = Math.min(layout.rows.length - 1, Math.ceil((pane.scrollTop + pane.clientHeight) / ROW) + 15);
  const top = first * ROW, height = (last - first + 1) * ROW + 20;
  const picture = svg("svg", { width: pictureWidth, height, viewBox: `0 ${top} ${pictureWidth} ${height}`, role: "img", "aria-label": "what is sent and told, time down" });
  picture.style.top = top + "px";
  picture.append(patterns(), ...layersOf(first, last));
  canvas.replaceChildren(picture);
  drawn = { first, last };
}

function patterns() {
  const made = svg("defs");
  const pattern = (id, size, shape) => {
    const it = svg("pattern", { id, width: size, height: size, patternUnits: "userSpaceOnUse" });
    it.append(shape);
    made.append(it);
  };
  pattern("hatched", 6, svg("path", { d: "M-1 7L7 -1M-1 1L1 -1M5 7L7 5", class: "hatch" }));
  pattern("dotted", 5, svg("circle", { cx: 2, cy: 2, r: 0.9, class: "dots" }));
  pattern("crossed", 6, svg("path", { d: "M-1 -1L7 7M-1 5L1 7M5 -1L7 1", class: "cross" }));
  pattern("striped", 5, svg("path", { d: "M0 1.5H5", class: "stripe" }));
  return made;
}

// Back to front: bands and shades, lanes, bars, arrows, and all words.
function layersOf(first, last) {
  const layers = [svg("g"), svg("g"), svg("g"), svg("g")];
  drawEvents(first, last, layers);
  drawLanes(first, last, layers[0]);
  for (const event of inWindow(layout.chunks.bars, layout.chunks.farBars, first, last)) drawBar(commands.get(event), layers[1]);
  for (let row = first; row <= last; row++) {
    const line = layout.rows[row].line;
    if (line >= 0 && lines[line].kind !== "message") layers[3].append(markOf(lines[line], row));
  }
  const arrows = inWindow(layout.chunks.arrows, layout.chunks.farArrows, first, last);
  const shown = arrows.slice(0, Math.floor((MOST_NODES - (last - first) * 8) / 7));
  for (const number of shown) {
    const [arrow, label] = arrowOf(messages[number]);
    layers[2].append(arrow);
    layers[3].append(label);
  }
  byId("middle").dataset.left = arrows.length - shown.length;
  if (shown.length < arrows.length) layers[3].append(svg("text", { x: GUTTER, y: yOf(first + 16) }, `${arrows.length - shown.length} more arrows cross this part and aren't drawn`));
  return layers;
}

function drawEvents(first, last, layers) {
  for (let row = first; row <= last; row++) {
    const { event, type } = layout.rows[row];
    const isFirst = row === 0 || layout.rows[row - 1].event !== event;
    if (event === picked.event) layers[0].append(svg("rect", { class: "band", x: 0, y: row * ROW, width: pictureWidth, height: ROW }));
    else if (search.events.has(event)) layers[0].append(svg("rect", { class: "band hit", x: 0, y: row * ROW, width: GUTTER, height: ROW }));
    if (isFirst) {
      layers[0].append(svg("path", { class: "gap", d: `M0 ${row * ROW + 0.5}H${pictureWidth}` }));
      if (event !== START && event !== LAST) drawDeed(event, row, layers);
    }
    if (isFirst) layers[3].append(labelOf(event, row));
    if (type === FOLD_ROW) layers[3].append(foldOf(event, row, isFirst));
  }
}

const textOfLabel = (event) => shortened((event === START || event === LAST ? "" : `${event} `) + textOfEvent(event), mostLetters(GUTTER));

function labelOf(event, row) {
  const isSettle = events[event].kind === "settle";
  const label = svg("text", { class: "label" + (isSettle ? " quiet" : "") + (event === picked.event ? " bold on" : ""), x: 12, y: yOf(row) + 4, "data-event": event },
    textOfLabel(event));
  label.append(svg("title", {}, textOfEvent(event)));
  return label;
}

function foldOf(event, row, isFirst) {
  const count = quietRounds.get(event);
  return svg("text", { class: "fold", x: isFirst ? 92 : 34, y: yOf(row) + 4, "data-fold": event }, `\u25b8 ${count} sent again, nothing new`);
}

// What an event does at a server, as far as no line of that server tells it in the same row.
function drawDeed(event, row, layers) {
  const { kind, fields } = events[event], x = lanes.get(fields.server);
  if (x === undefined || fields.client) return;
  if (FAULTY.has(kind)) layers[0].append(svg("rect", { class: "faulty", x: x - 14, y: row * ROW + 1, width: 28, height: ROW - 2, rx: 4 }));
  const line = layout.rows[row].line;
  if (line >= 0 && lines[line].kind !== "message" && lines[line].party === fields.server) return;
  const mark = svg("g", { class: "mark" + (FAULTY.has(kind) ? " bad" : ""), "data-event": event });
  const words = textOfEvent(event).split(/ +/).filter((it, at) => at !== 1).join(" ");
  mark.append(svg("path", { d: `M${x} ${yOf(row)}${FAULTY.has(kind) ? STAR : CIRCLE}` }), svg("text", { x: x + 18, y: yOf(row) + 4 }, shortened(words, mostLetters(Math.max(laneWidth * 1.35, pictureWidth - x > MARGIN ? 0 : MARGIN)))));
  layers[3].append(mark);
}

// Lifelines, dashed and hatched while a server is down.
function drawLanes(first, last, layer) {
  for (const [party, x] of lanes) {
    let since = 0, isUp = party[0] === "c";
    const draw = (to) => {
      const from = Math.max(since, first), end = Math.min(to, last + 1);
      if (end <= from) return;
      if (!isUp) layer.append(svg("rect", { class: "down", x: x - 9, y: from * ROW, width: 18, height: (end - from) * ROW }));
      layer.append(svg("path", { class: "life" + (isUp ? "" : " off"), d: `M${x} ${from * ROW}V${end * ROW}` }));
    };
    for (const line of powerOf.get(party) || []) {
      const row = layout.rowOfLine[line.index] + 0.5;
      draw(row);
      since = row;
      isUp = line.kind === "up";
      if (row > last + 1) break;
    }
    draw(layout.rows.length);
  }
}

const powerOf = new Map();
for (const line of lines) {
  if (line.kind !== "up" && line.kind !== "down" && line.kind !== "stopped") continue;
  if (!powerOf.has(line.server)) powerOf.set(line.server, []);
  powerOf.get(line.server).push(line);
}

function drawBar(command, layer) {
  const x = lanes.get(command.client), from = layout.rowOfEvent[command.event];
  if (x === undefined || !eventFits(command.event)) return;
  const ends = command.last >= 0 ? layout.rowOfLine[command.last] : command.replacedBy ? layout.rowOfEvent[command.replacedBy] : layout.rows.length - 0.5;
  const bar = svg("g", { "data-event": command.event, class: "label" });
  const rect = (top, bottom, kind) => bar.append(svg("rect", { class: "bar " + kind, x: x - 4, y: yOf(top) - 5, width: 8, height: Math.max(10, (bottom - top) * ROW + 10), rx: 3 }));
  const waits = command.waits.length ? layout.rowOfLine[command.waits[0]] : ends;
  rect(from, waits, BARS[command.outcome]);
  if (command.waits.length) rect(waits, ends, "waits");
  bar.append(svg("title", {}, `${textOfEvent(command.event)} (event ${command.event}): ${outcomeWords(command)}`));
  layer.append(bar);
}

const outcomeWords = (command) => (command.outcome === "replaced" ? `replaced by the abort of event ${command.replacedBy}`
  : command.outcome === "unanswered" ? "no answer" : command.outcome);

// What a mark says: the line without its event and party; a refusal with its reason in words.
function wordsOfMark(line) {
  const text = line.raw.slice(line.raw.indexOf(": ") + 2).split(" ").filter((it) => it !== line.party && it !== line.client).join(" ");
  const reason = line.words.indexOf("refused: ");
  return reason >= 0 ? `${text.split(" ").slice(0, line.kind === "refused" ? 3 : 2).filter((it, at) => !(line.kind === "refused" && at === 1)).join(" ")}: ${line.words.slice(reason + 9)}` : text;
}

// What belongs to no client or server stands with the events.
function besideLabel(event, row) {
  const isFirst = row === 0 || layout.rows[row - 1].event !== event;
  return isFirst ? 30 + textOfLabel(event).length * letterWidth : 40;
}

function markOf(line, row) {
  const missed = line.kind === "lost" || line.kind === "ignored" ? messages[line.number] : null;
  const x = lanes.get(missed ? missed.receiver : line.party) || besideLabel(line.event, row), y = yOf(row);
  const [shape, tone] = SIGNS[line.kind] || [CIRCLE, ""];
  const mark = svg("g", { class: `mark ${tone}${asideOf(momentOfLine[line.index])}${onBand(line.event)}`, "data-event": line.event });
  mark.append(svg("title", {}, line.words), svg("path", { d: `M${x} ${y}${shape}` }),
    svg("text", { x: x + 11, y: y + (moments[momentOfLine[line.index]].message >= 0 && line.command ? 6 : 4) }, shortened(wordsOfMark(line), mostLetters(pictureWidth - x))));
  return mark;
}

// The words of the picked event stand on its band.
const onBand = (event) => (event === picked.event ? " on" : "");

// ---- arrows, each with its label, which lies above all arrows, and right of the sender: what the sender answers comes from the left

const asideOf = (moment) => {
  if (!picked.cones || picked.message < 0) return "";
  return picked.cones.past.has(moment) || picked.cones.future.has(moment) ? "" : " aside";
};

function coneOfMessage(number) {
  if (picked.message < 0) return "";
  if (picked.message === number) return "picked";
  return picked.cones.pastMessages.has(number) ? "past" : picked.cones.futureMessages.has(number) ? "future" : "aside";
}

function deedOfMessage(message) {
  if (message.word !== "op" || !message.command) return message.word;
  const { kind, fields } = events[message.command];
  return `op ${kind} ${fields.unit}${fields.hex ? " " + fields.hex : ""}`;
}

// The number, what is sent, and the transaction, which is left out where there is no room.
function wordsOfArrow(message, cone, most) {
  const sign = cone === "past" ? "\u2039 " : cone === "future" ? "\u203a " : "";
  const words = `${sign}${message.number} ${deedOfMessage(message)}`;
  const tail = message.of >= 0 ? " \u00b7 " + nameOf(message.of) : "";
  const left = most - tail.length;
  return words.length <= left || left > 16 ? shortened(words, left) + tail : shortened(words, most);
}

const HOW = { taken: "handed over", ignored: "handed over, and ignored", lost: "lost, since its server was down", waits: "never handed over", unknown: "not handed over before the report was cut" };

function arrowOf(message) {
  const x = lanes.get(message.sender), to = lanes.get(message.receiver), y = yOf(layout.rowOfLine[message.line]);
  const ends = message.places.map((at) => yOf(layout.rowOfMoment[at]));
  const cone = coneOfMessage(message.number);
  const classes = `arrow ${message.how}${message.of >= 0 ? ` t${message.of % 8}` : ""} ${cone}`;
  const arrow = svg("g", { class: classes, "data-message": message.number });
  const way = ends.length ? wayTo(x, y, to, ends[0]) : wayTo(x, y, to > x ? x + 46 : x - 46, y + HALF);
  arrow.append(svg("title", {}, lines[message.line].words + ": " + HOW[message.how]), svg("path", { class: "wide", d: way }), svg("path", { class: "way", d: way }));
  const [endX, endY] = ends.length ? [to, ends[0]] : [to > x ? x + 46 : x - 46, y + HALF];
  const side = endX > x ? -8 : 8;
  arrow.append(svg("path", { class: "head", d: `M${endX} ${endY}l${side} -3.5v7z` }));
  for (const it of ends.slice(1)) arrow.append(svg("path", { class: "way", d: `M${to} ${it}${CIRCLE}` }));
  const most = mostLetters(Math.max(laneWidth * 1.35, to - x, pictureWidth - x > MARGIN ? 0 : MARGIN));
  const label = svg("g", { class: classes + onBand(message.event), "data-message": message.number });
  label.append(svg("text", { x: x + 9, y: y - 3 }, wordsOfArrow(message, cone, most)));
  return [arrow, label];
}

// A message of a server to itself is drawn as a bow.
const wayTo = (x, y, to, below) => (x === to ? `M${x} ${y}C${x + 30} ${y} ${x + 30} ${below} ${x} ${below}` : `M${x} ${y}L${to} ${below}`);

// ---- the schedule

function drawSchedule() {
  const pane = byId("left"), canvas = pane.querySelector(".canvas");
  canvas.style.height = data.schedule.length * ROW + 20 + "px";
  const first = Math.max(0, Math.floor(pane.scrollTop / ROW) - 10);
  const last = Math.min(data.schedule.length - 1, Math.ceil((pane.scrollTop + pane.clientHeight) / ROW) + 10);
  const rows = [];
  for (let at = first; at <= last; at++) rows.push(scheduleRow(at));
  canvas.replaceChildren(...rows);
}

function scheduleRow(at) {
  const event = eventOfLine.get(at + 1);
  const row = html("div", "row " + (event ? "event" : "note"));
  if (event && event === picked.event) row.classList.add("picked");
  if (search.lines.has(at)) row.classList.add("hit");
  row.style.top = at * ROW + "px";
  row.append(html("span", "number", at + 1), html("span", "words", data.schedule[at]));
  if (event) row.dataset.event = event;
  return row;
}
