"use strict";
// What the page knows of the run: lines, events, messages, moments and commands, and what follows from them.

const data = JSON.parse(document.getElementById("data").textContent);
const START = 0;
const LAST = data.events.length + 1; // the place of the end, behind all events
const FOLDED_PARTS = 1; // parts of a settle from this one on are its second round

const transactions = data.transactions.map(([name, coordinator, client]) => ({ name, coordinator, client: client || null }));
const placeOf = (event) => (event < 0 ? LAST : event);
const nameOf = (transaction) => (transaction < 0 ? null : transactions[transaction].name);
const numberOf = new Map(transactions.map((it, number) => [it.name, number]));

const lines = data.lines.map(([event, kind, values, raw, words, party, transaction], index) => {
  const line = { index, event: placeOf(event), kind: data.kinds[kind], raw, words, party: party || null, of: transaction };
  data.fields[kind].forEach((name, at) => { if (values[at] !== -1) line[name] = values[at]; });
  return line;
});

// The event of place 0 is the start, and that of the last place the end; the others have the fields of their kinds.
const events = [{ number: START, kind: "start", of: -1 }]
  .concat(data.events.map(([line, kind, fields, of], at) => ({ number: at + 1, line, kind, fields, of })))
  .concat([{ number: LAST, kind: "end", of: -1 }]);
const eventOfLine = new Map(data.events.map(([line], at) => [line, at + 1]));

const messages = data.messages.map(([line, how, places, of, command], number) => ({
  number, line, how, places, of, command,
  sender: lines[line].sender, receiver: lines[line].receiver, word: lines[line].word, event: lines[line].event,
}));

const moments = data.moments.map(([event, party, message, first, count, part, known], index) => ({
  index, event: placeOf(event), party: party || null, message, first, count, part, known: Boolean(known), before: -1, after: -1,
}));

const commands = new Map(data.commands.map(([event, client, of, waits, last, outcome, replacedBy]) =>
  [event, { event, client, of, waits, last, outcome, replacedBy }]));

// Where the moments and the lines of each event begin; one place more, so that each has an end.
const firstMoment = new Array(LAST + 2).fill(moments.length);
const firstLine = new Array(LAST + 2).fill(lines.length);
const momentOfLine = new Int32Array(lines.length).fill(-1);
const shownLast = data.whole ? LAST : (lines.length ? lines[lines.length - 1].event : START);

function fillFirsts(firsts, items) {
  for (let at = items.length - 1; at >= 0; at--) firsts[items[at].event] = at;
  for (let event = firsts.length - 2; event >= 0; event--) firsts[event] = Math.min(firsts[event], firsts[event + 1]);
}

function linkMoments() {
  const last = new Map();
  for (const it of moments) {
    for (let at = 0; at < it.count; at++) momentOfLine[it.first + at] = it.index;
    if (it.party === null) continue;
    if (last.has(it.party)) {
      it.before = last.get(it.party);
      moments[it.before].after = it.index;
    }
    last.set(it.party, it.index);
  }
}

fillFirsts(firstMoment, moments);
fillFirsts(firstLine, lines);
linkMoments();

const parties = (() => {
  const found = new Set();
  for (const it of moments) if (it.party) found.add(it.party);
  for (const it of messages) found.add(it.sender).add(it.receiver);
  return [...found].sort();
})();

const momentsOf = (event) => moments.slice(firstMoment[event], firstMoment[event + 1]);
const linesOf = (event) => lines.slice(firstLine[event], firstLine[event + 1]);
const linesAt = (moment) => lines.slice(moment.first, moment.first + moment.count);
const messageOf = (line) => (line.kind === "message" ? messages[line.number] : null);

function textOfEvent(event) {
  if (event === START) return "the start";
  if (event === LAST) return "the end";
  return data.schedule[events[event].line - 1].trim();
}

// ---- causes

// Everything that may have had a part in these moments: what their parties did before, and what was sent to them.
function pastOf(starts) {
  const seen = new Set(), left = [...starts];
  while (left.length) {
    const it = moments[left.pop()];
    if (seen.has(it.index)) continue;
    seen.add(it.index);
    if (it.before >= 0) left.push(it.before);
    if (it.message >= 0) left.push(momentOfLine[messages[it.message].line]);
  }
  return seen;
}

// Everything in which these moments may have had a part.
function futureOf(starts) {
  const seen = new Set(), left = [...starts];
  while (left.length) {
    const it = moments[left.pop()];
    if (seen.has(it.index)) continue;
    seen.add(it.index);
    if (it.after >= 0) left.push(it.after);
    for (const line of linesAt(it)) {
      if (line.kind === "message") left.push(...takings(messages[line.number]));
    }
  }
  return seen;
}

// The moments in which a message is taken. Where its server is down nobody takes it.
const takings = (message) => message.places.filter((at) => moments[at].party !== null);

const messagesTakenIn = (set) => new Set([...set].map((at) => moments[at].message).filter((it) => it >= 0));
const messagesSentIn = (set) => new Set([...set].flatMap((at) => linesAt(moments[at]))
  .filter((it) => it.kind === "message").map((it) => it.number));

// A message's past ends where it is sent, and its future begins where it is taken.
function conesOfMessage(message) {
  return cones(pastOf([momentOfLine[message.line]]), futureOf(takings(message)));
}

function conesOfEvent(event) {
  const own = momentsOf(event).map((it) => it.index);
  const past = pastOf(own), future = futureOf(own);
  for (const at of own) { past.delete(at); future.delete(at); }
  return cones(past, future);
}

function cones(past, future) {
  return { past, future, pastMessages: messagesTakenIn(past), futureMessages: messagesSentIn(future) };
}

// ---- how things stand

const operations = new Map(); // by transaction: its operations that were done, in their order
for (const command of commands.values()) {
  if (command.of < 0 || command.outcome !== "did") continue;
  if (!operations.has(command.of)) operations.set(command.of, []);
  operations.get(command.of).push(events[command.event]);
}

// The bytes of a block without the zeros at its end, as reports have them.
function withoutZeros(hex) {
  let length = hex === "-" ? 0 : hex.length;
  while (length && hex.slice(length - 2, length) === "00") length -= 2;
  return hex.slice(0, length) || "-";
}

function perform(files, event) {
  const { server, file, block, hex } = event.fields;
  if (!files.has(server)) files.set(server, new Map());
  const there = files.get(server);
  if (event.kind === "create") there.set(file, new Map());
  if (event.kind === "remove") there.delete(file);
  if (event.kind === "cut") for (const it of [...(there.get(file) || new Map()).keys()]) if (it >= block) there.get(file).delete(it);
  if (event.kind === "write") {
    if (!there.has(file)) there.set(file, new Map());
    there.get(file).set(block, withoutZeros(hex));
  }
}

// What the lines up to an event tell, and no more: nothing of locks, pages or what a server holds in memory.
function standingAfter(event) {
  const servers = new Map(), clients = new Map(), commits = [], files = new Map();
  const clientAt = (name) => clients.get(name) || clients.set(name, { of: -1, command: null, waits: null }).get(name);
  for (const name of parties) {
    if (name[0] === "s") servers.set(name, { up: false, epoch: 0 });
    else clientAt(name);
  }
  let next = 0;
  const ordered = [...commands.values()];
  const give = (last) => {
    for (; next < ordered.length && ordered[next].event <= last; next++) {
      const command = ordered[next];
      const isRefused = command.outcome === "refused" && lines[command.last].event === command.event;
      if (!isRefused) Object.assign(clientAt(command.client), { command, waits: null });
    }
  };
  for (let at = 0; at < firstLine[event + 1]; at++) {
    const line = lines[at];
    give(Math.min(line.event, event));
    if (line.kind === "up") servers.set(line.server, { up: true, epoch: line.epoch });
    if (line.kind === "down" || line.kind === "stopped") Object.assign(servers.get(line.server) || {}, { up: false });
    if (line.kind === "commit") {
      commits.push(line);
      for (const it of operations.get(numberOf.get(line.transaction)) || []) perform(files, it);
    }
    if (line.command !== undefined) takeAnswer(clientAt(line.client), line);
  }
  give(event);
  return { servers, clients, commits, files, waits: waitsOf(clients), unanswered: votesWithoutOutcome(event) };
}

function takeAnswer(client, line) {
  if (line.kind === "begun") client.of = numberOf.get(line.transaction);
  if (line.kind === "committed" || line.kind === "aborted") client.of = -1;
  if (!client.command || client.command.event !== line.command) return;
  if (line.kind === "waiting") client.waits = line;
  else Object.assign(client, { command: null, waits: null });
}

// Which client's transaction waits for which other one, and whether these waits close a ring.
function waitsOf(clients) {
  const waits = [];
  for (const [client, it] of clients) {
    if (it.waits) waits.push({ client, of: it.of, by: numberOf.has(it.waits.by) ? numberOf.get(it.waits.by) : -1, line: it.waits, inCycle: false });
  }
  const next = new Map(waits.map((it) => [it.of, it.by]));
  for (const it of waits) {
    let at = it.by;
    for (let steps = 0; steps < waits.length && at !== it.of && next.has(at); steps++) at = next.get(at);
    it.inCycle = at === it.of && it.of >= 0;
  }
  return waits;
}

// Each part of a transaction whose server has voted, and to which no `commit` or `drop` was handed over since.
function votesWithoutOutcome(event) {
  const open = new Map();
  const last = firstMoment[event + 1];
  for (let at = 0; at < last; at++) {
    const moment = moments[at];
    const taken = moment.message >= 0 && moment.party ? messages[moment.message] : null;
    if (taken && (taken.word === "commit" || taken.word === "drop")) open.delete(`${taken.receiver} ${taken.of}`);
    for (const line of linesAt(moment)) {
      const sent = messageOf(line);
      if (sent && sent.word === "vote" && sent.of >= 0) open.set(`${sent.sender} ${sent.of}`, sent);
    }
  }
  return [...open.values()];
}

// Whether the files that the end prints are those of the commits that the report names; null where the report has no end.
function endsAsReplayed() {
  if (!data.whole) return null;
  const told = new Map();
  for (const line of linesOf(LAST)) {
    if (line.kind === "file") perform(told, { kind: "create", fields: line });
    if (line.kind === "page") perform(told, { kind: "write", fields: line });
  }
  return JSON.stringify(listOfFiles(told)) === JSON.stringify(listOfFiles(standingAfter(LAST).files));
}

// Files in the order of their servers and numbers, each with its blocks in theirs.
function listOfFiles(files) {
  const byNumber = (a, b) => a[0] - b[0];
  return [...files].sort().flatMap(([server, there]) =>
    [...there].sort(byNumber).map(([file, blocks]) => [server, file, [...blocks].sort(byNumber)]));
}
