// With #selftest at the end of the address the page tries itself and writes what it counted behind all else, for tools/test_page.

function runSelftest() {
  const found = { painted: Math.round(performance.now()), past: {}, future: {} };
  found.messages = messages.length;
  found.transactions = messages.map((it) => nameOf(it.of));
  found.commands = messages.map((it) => it.command);
  found.how = messages.map((it) => it.how);
  found.arrows = countArrows();
  for (const it of messages.length < 2000 ? messages.slice(0, 60) : []) {
    const cones = conesOfMessage(it);
    const sorted = (set) => [...set].sort((a, b) => a - b);
    found.past[it.number] = sorted(cones.pastMessages);
    found.future[it.number] = sorted(cones.futureMessages);
  }
  found.asReplayed = endsAsReplayed();
  found.cycles = eventsWithCycles();
  found.folded = [...quietRounds];
  found.mostNodes = mostNodesInView();
  found.leftOut = mostLeftOut;
  found.keys = tryKeys();
  found.images = document.images.length;
  found.scripts = document.scripts.length;
  found.schedule = [...document.querySelectorAll("#left .words")].slice(0, 30).map((it) => it.textContent);
  const place = document.createElement("pre");
  place.id = "selftest";
  place.textContent = JSON.stringify(found);
  document.body.append(place);
}

// The arrows that each filter leaves, with `inquire` and all second rounds shown and without.
function countArrows() {
  const count = (client, server, transaction) => {
    setFilter(client, server, transaction);
    return layout.arrows.length;
  };
  const found = { shown: count("", "", -1), clients: {}, servers: {}, transactions: {} };
  Object.assign(filter, { inquire: true, rounds: true });
  found.all = count("", "", -1);
  for (const it of parties) found[it[0] === "c" ? "clients" : "servers"][it] = it[0] === "c" ? count(it, "", -1) : count("", it, -1);
  transactions.slice(0, messages.length < 2000 ? 100 : 5).forEach((it, number) => { found.transactions[it.name] = count("", "", number); });
  Object.assign(filter, { inquire: true, rounds: false });
  found.folded = count("", "", -1);
  Object.assign(filter, { inquire: false, rounds: true });
  found.withoutInquire = count("", "", -1);
  Object.assign(filter, { inquire: false, rounds: false });
  setFilter("", "", -1);
  return found;
}

function eventsWithCycles() {
  const found = [];
  const waiting = new Set(lines.filter((it) => it.kind === "waiting").map((it) => it.event));
  for (const event of [...waiting].slice(0, 200)) if (standingAfter(event).waits.some((it) => it.inCycle)) found.push(event);
  return found;
}

let mostLeftOut = 0;

// Goes through the whole picture, with everything shown and an event picked, and returns the most nodes at once.
function mostNodesInView() {
  Object.assign(filter, { inquire: true, rounds: true });
  relayout();
  pick(shownLast, -1);
  let most = 0;
  const pane = byId("middle"), step = Math.max(pane.clientHeight, pane.scrollHeight / 300);
  for (let y = 0; y <= pane.scrollHeight; y += step) {
    pane.scrollTop = y;
    byId("left").scrollTop = y;
    redraw();
    most = Math.max(most, document.getElementsByTagName("*").length);
    mostLeftOut = Math.max(mostLeftOut, Number(pane.dataset.left));
  }
  Object.assign(filter, { inquire: false, rounds: false });
  relayout();
  return most;
}

// j, k, / and Esc, and a link to an event.
function tryKeys() {
  const press = (key) => document.dispatchEvent(new KeyboardEvent("keydown", { key, bubbles: true }));
  letGo();
  press("j");
  press("j");
  const second = picked.event;
  press("k");
  const first = picked.event;
  byId("search").value = "settle";
  findText("settle");
  const hits = search.targets.length;
  goToHit(1);
  const hit = picked.event;
  press("Escape");
  return { first, second, hits, hit, afterEscape: picked.event };
}
