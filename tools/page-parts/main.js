// Ties it together: picking, keys, search, filters, and drawing what comes into view.

const search = { text: "", events: new Set(), lines: new Set(), targets: [], at: -1 };

function redraw() {
  drawPicture();
  drawSchedule();
}

function relayout() {
  const anchor = picked.event >= 0 ? picked.event : eventAtTop();
  layout = layOut();
  placeLanes();
  byId("counts").textContent = countsWords();
  if (anchor >= 0) showEvent(anchor, false);
  redraw();
}

function countsWords() {
  const own = layout.shownEvents.filter((it) => it !== START && it !== LAST).length;
  const words = `${own} of ${data.events.length} events`;
  return data.traced ? `${layout.arrows.length} of ${messages.length} messages, ${words}` : words;
}

function eventAtTop() {
  if (!layout || !layout.rows.length) return -1;
  return layout.rows[Math.min(layout.rows.length - 1, Math.floor(byId("middle").scrollTop / ROW))].event;
}

// ---- picking

function pick(event, message, isFromLink) {
  picked.event = event;
  picked.message = message;
  picked.cones = message >= 0 ? conesOfMessage(messages[message]) : null;
  const target = message >= 0 ? `message-${message}` : event === LAST ? "event-end" : event >= 0 ? `event-${event}` : "";
  if (!isFromLink) history.replaceState(null, "", target ? "#" + target : "#");
  if (message >= 0 && unfoldFor(messages[message])) relayout();
  if (event >= 0) showEvent(event, message < 0);
  if (message >= 0) showRow(layout.rowOfLine[messages[message].line]);
  fillPanel();
  redraw();
}

// A message that is folded or left out is shown where it is picked.
function unfoldFor(message) {
  if (layout.isLineShown[message.line]) return false;
  unfolded.add(message.event);
  if (message.word === "inquire") byId("inquire").checked = filter.inquire = true;
  if (!messageFits(message)) clearFilters();
  return true;
}

function showEvent(event, isBoth) {
  showRow(layout.rowOfEvent[event]);
  const line = events[event].line;
  if (isBoth && line) showIn(byId("left"), (line - 1) * ROW);
}

const showRow = (row) => showIn(byId("middle"), row * ROW);

function showIn(pane, y) {
  if (y < pane.scrollTop + 40 || y > pane.scrollTop + pane.clientHeight - 80) pane.scrollTop = Math.max(0, y - pane.clientHeight / 3);
}

function pickByHash(isFromLink) {
  const found = /^#(event|message)-(\d+|end)$/.exec(location.hash);
  if (!found) return;
  const number = found[2] === "end" ? LAST : Number(found[2]);
  if (found[1] === "event" && number <= LAST) pick(number, -1, isFromLink);
  if (found[1] === "message" && number < messages.length) pick(messages[number].event, number, isFromLink);
}

function pickNext(step) {
  const shown = layout.shownEvents;
  if (!shown.length) return;
  let at = shown.findIndex((it) => it >= picked.event);
  if (at < 0) at = shown.length;
  if (picked.event < 0) at = step > 0 ? 0 : shown.length - 1;
  else if (shown[at] === picked.event) at += step;
  else if (step < 0) at -= 1;
  pick(shown[Math.max(0, Math.min(shown.length - 1, at))], -1);
}

function pickByClick(click) {
  const place = click.target.closest("[data-message], [data-fold], [data-event]");
  if (!place) return;
  if (place.dataset.message !== undefined) pick(messages[Number(place.dataset.message)].event, Number(place.dataset.message));
  else if (place.dataset.fold !== undefined) { unfolded.add(Number(place.dataset.fold)); relayout(); }
  else pick(Number(place.dataset.event), -1);
}

// ---- search

function findText(text) {
  const wanted = text.trim().toLowerCase();
  Object.assign(search, { text: wanted, events: new Set(), lines: new Set(), targets: [], at: -1 });
  if (wanted) {
    data.schedule.forEach((line, at) => {
      if (!line.toLowerCase().includes(wanted)) return;
      search.lines.add(at);
      if (eventOfLine.has(at + 1)) search.events.add(eventOfLine.get(at + 1));
      else search.targets.push({ order: at, line: at });
    });
    for (const line of lines) if (line.raw.toLowerCase().includes(wanted) || line.words.toLowerCase().includes(wanted)) search.events.add(line.event);
  }
  for (const event of search.events) search.targets.push({ order: event === LAST ? Infinity : event === START ? -1 : events[event].line - 1, event });
  search.targets.sort((a, b) => a.order - b.order);
  byId("hits").textContent = wanted ? `${search.targets.length} found` : "";
  redraw();
}

function goToHit(step) {
  if (!search.targets.length) return;
  search.at = (search.at + step + search.targets.length) % search.targets.length;
  const target = search.targets[search.at];
  byId("hits").textContent = `${search.at + 1} of ${search.targets.length}`;
  if (target.event !== undefined) pick(target.event, -1);
  else { showIn(byId("left"), target.line * ROW); redraw(); }
}

// ---- controls

const MOST_CHOICES = 300; // of transactions; any other can be typed

function fillChoices() {
  const add = (id, value, text) => {
    const option = html("option", "", text);
    option.value = value;
    byId(id).append(option);
  };
  for (const it of parties) add(it[0] === "c" ? "client" : "server", it, it);
  const byName = transactions.map((it, number) => number).sort((a, b) => compareNames(nameOf(a), nameOf(b)));
  for (const number of byName.slice(0, MOST_CHOICES)) add("transactions", nameOf(number), clientOf(number) ? "of " + clientOf(number) : "");
}

function compareNames(a, b) {
  const left = a.split(".").map(Number), right = b.split(".").map(Number);
  return left[0] - right[0] || left[1] - right[1] || left[2] - right[2];
}

function setFilter(client, server, transaction) {
  Object.assign(filter, { client, server, transaction });
  byId("client").value = client;
  byId("server").value = server;
  byId("transaction").value = transaction < 0 ? "" : nameOf(transaction);
  byId("transaction").setCustomValidity("");
  relayout();
}

function clearFilters() {
  setFilter("", "", -1);
}

function readFilters() {
  const name = byId("transaction").value.trim();
  const isKnown = name === "" || numberOf.has(name);
  byId("transaction").setCustomValidity(isKnown ? "" : "The report names no such transaction");
  Object.assign(filter, {
    client: byId("client").value, server: byId("server").value, transaction: name && isKnown ? numberOf.get(name) : -1,
    inquire: byId("inquire").checked, rounds: byId("rounds").checked,
  });
  if (!filter.rounds) unfolded.clear();
  relayout();
}

function takeKey(key) {
  if (key.ctrlKey || key.metaKey || key.altKey) return;
  const isTyping = key.target === byId("search");
  if (key.key === "Escape") letGo();
  else if (isTyping && key.key === "Enter") goToHit(key.shiftKey ? -1 : 1);
  else if (key.target.tagName === "SELECT" || key.target.tagName === "INPUT" && key.target.type !== "checkbox") return;
  else if (key.key === "/") byId("search").focus();
  else if (key.key === "j") pickNext(1);
  else if (key.key === "k") pickNext(-1);
  else return;
  key.preventDefault();
}

function letGo() {
  byId("search").value = "";
  byId("search").blur();
  byId("help").open = false;
  findText("");
  pick(-1, -1);
}

// ---- the signs explained

function fillLegend() {
  const sample = (...shapes) => {
    const picture = svg("svg", { viewBox: "0 0 64 18" });
    picture.append(...shapes);
    return picture;
  };
  const arrow = (how, of) => {
    const made = svg("g", { class: `arrow ${how}${of}` });
    made.append(svg("path", { class: "way", d: "M4 9H56" }), svg("path", { class: "head", d: "M60 9l-8 -3.5v7z" }));
    if (how === "lost") made.append(svg("path", { class: "missed", d: "M54 4l10 10m0 -10l-10 10" }));
    return made;
  };
  const bar = (kind) => svg("rect", { class: "bar " + kind, x: 12, y: 5, width: 40, height: 8, rx: 3 });
  const sign = (kind) => {
    const made = svg("g", { class: "mark " + SIGNS[kind][1] });
    made.append(svg("path", { d: "M32 9" + SIGNS[kind][0] }));
    return made;
  };
  const row = (picture, text) => {
    const made = html("p");
    made.append(picture, html("span", "", text));
    return made;
  };
  const key = (name, text) => row(html("kbd", "", name), text);
  byId("legend").append(
    key("j k", "the next event, the event before"), key("/", "search; Enter goes on, Shift and Enter back"), key("Esc", "lets go of all that is picked or searched"),
    row(sample(arrow("taken", " t0")), "a message; its colour and name are its transaction's"),
    row(sample(arrow("taken", "")), "a message whose transaction the report leaves open"),
    row(sample(arrow("lost", " t0")), "lost: its server was down"),
    row(sample(arrow("ignored", " t0")), "ignored: too late, or once too often"),
    row(sample(arrow("waits", " t0")), "never handed over"),
    row(sample(bar("good")), "a command, from its event to its answer: done"),
    row(sample(bar("warn")), "refused"), row(sample(bar("waits")), "waiting for another transaction"),
    row(sample(bar("bad")), "aborted"), row(sample(bar("open")), "without an answer, or replaced by an abort"),
    row(sample(svg("rect", { class: "down", x: 12, y: 0, width: 40, height: 18 })), "a server is down"),
    row(sample(svg("rect", { class: "faulty", x: 12, y: 1, width: 40, height: 16, rx: 4 })), "a fault or a crash by the schedule"),
    row(sample(sign("commit")), "a commit"), row(sample(sign("committed")), "its client hears of it"),
    row(sample(sign("stopped")), "a stop, an abort, a part that is broken"), row(sample(sign("refused")), "a refusal, or a wait"),
    row(sample(sign("outside")), "a fault that wasn't allowed"),
    html("p", "", "Behind a click on a message, \u2039 marks what led to it, \u203a what it led to, and the rest is pale."));
}

// ---- the beginning

function start() {
  document.body.className = "live"; // without the script the style of the picture alone holds
  for (const id of ["bar", "page"]) byId(id).hidden = false;
  byId("notes").hidden = !data.notes.length;
  fillChoices();
  fillLegend();
  layout = layOut();
  placeLanes();
  byId("counts").textContent = countsWords();
  fillPanel();
  redraw();
  pickByHash(true);
}

function listen() {
  for (const id of ["client", "server", "transaction", "inquire", "rounds"]) byId(id).addEventListener("change", readFilters);
  byId("search").addEventListener("input", () => findText(byId("search").value));
  byId("middle").addEventListener("scroll", drawPicture, { passive: true });
  byId("left").addEventListener("scroll", drawSchedule, { passive: true });
  byId("middle").addEventListener("click", pickByClick);
  byId("left").addEventListener("click", pickByClick);
  document.addEventListener("keydown", takeKey);
  window.addEventListener("hashchange", () => pickByHash(true));
  window.addEventListener("resize", () => { placeLanes(); redraw(); });
}

start();
listen();
if (location.hash === "#selftest") runSelftest();
