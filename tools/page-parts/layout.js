// Which row of the picture everything stands in. A row is a line of the report, a folded second round, or an event without either.

const filter = { client: "", server: "", transaction: -1, inquire: false, rounds: false };
const unfolded = new Set(); // events whose second round is shown although others are folded
const isFiltered = () => Boolean(filter.client || filter.server || filter.transaction >= 0);

const clientOf = (of) => (of >= 0 ? transactions[of].client : null);

function fits(client, servers, of) {
  return (!filter.client || client.includes(filter.client)) && (!filter.server || servers.includes(filter.server))
    && (filter.transaction < 0 || of.includes(filter.transaction));
}

function messageFits(message) {
  if (message.word === "inquire" && !filter.inquire) return false;
  return fits([message.sender, message.receiver, clientOf(message.of)], [message.sender, message.receiver], [message.of]);
}

function lineFits(line) {
  const message = messageOf(line);
  if (message) return messageFits(message);
  if (!isFiltered()) return true;
  const missed = line.kind === "lost" || line.kind === "ignored" ? messages[line.number] : null;
  if (missed) return messageFits(missed);
  const command = line.command ? events[line.command] : null;
  const servers = [line.server, line.party, command && command.fields.server];
  return fits([line.client, clientOf(line.of)], servers, [line.of, line.by ? numberOf.get(line.by) : -1]);
}

function eventFits(event) {
  if (!isFiltered()) return true;
  if (event === START || event === LAST) return false;
  const { fields, of } = events[event];
  return fits([fields.client, clientOf(of)], [fields.server], [of]);
}

// A second round tells nothing new where its lines are messages, also ignored ones, or those lost at a server that was down before, or where they
// tell once more what a client waits for.
const lastWaits = new Map();
function tellsNothingNew(line, hasStop) {
  if (line.kind === "message" || line.kind === "ignored") return true;
  if (line.kind === "lost") return !hasStop;
  return line.kind === "waiting" && lastWaits.get(line.command) === `${line.server} ${line.unit} ${line.by}`;
}

const quietRounds = new Map(); // by event: how many messages its second round sends, where it tells nothing new
(function findQuietRounds() {
  for (let event = START; event <= LAST; event++) {
    const own = momentsOf(event);
    const first = own.filter((it) => it.part < FOLDED_PARTS).flatMap(linesAt);
    const second = own.filter((it) => it.part >= FOLDED_PARTS).flatMap(linesAt);
    const remember = (line) => line.kind === "waiting" && lastWaits.set(line.command, `${line.server} ${line.unit} ${line.by}`);
    first.forEach(remember);
    const hasStop = first.some((it) => it.kind === "stopped");
    if (second.length && second.every((it) => tellsNothingNew(it, hasStop))) quietRounds.set(event, second.filter((it) => it.kind === "message").length);
    second.forEach(remember);
  }
})();

const isFolded = (event) => quietRounds.has(event) && !filter.rounds && !unfolded.has(event);

const LINE_ROW = 0, FOLD_ROW = 1, EVENT_ROW = 2;
let layout = null;

// Returns the rows, the row of each event, line and moment (between two rows where it has none), and which messages are drawn.
function layOut() {
  const found = {
    rows: [], rowOfEvent: new Float64Array(LAST + 1), rowOfLine: new Float64Array(lines.length), isLineShown: new Uint8Array(lines.length),
    rowOfMoment: new Float64Array(moments.length), shownEvents: [], arrows: [],
  };
  for (let event = START; event <= shownLast; event++) layOutEvent(event, found);
  for (const it of messages) if (found.isLineShown[it.line]) found.arrows.push(it.number);
  found.chunks = chunksOf(found);
  return found;
}

function layOutEvent(event, found) {
  const begin = found.rows.length;
  let hasFold = false;
  found.rowOfEvent[event] = begin;
  for (const moment of momentsOf(event)) {
    if (moment.part >= FOLDED_PARTS && isFolded(event)) {
      const isWanted = linesAt(moment).some((it) => it.kind === "message" && lineFits(it) || it.kind === "message" && it.word === "inquire" && !isFiltered());
      if (!hasFold && isWanted) hasFold = found.rows.push({ type: FOLD_ROW, event, line: -1 }) > 0;
      found.rowOfMoment[moment.index] = found.rows.length - 0.5;
      for (const it of linesAt(moment)) found.rowOfLine[it.index] = found.rows.length - 0.5;
    } else {
      layOutMoment(moment, found);
    }
  }
  if (found.rows.length === begin && eventFits(event)) found.rows.push({ type: EVENT_ROW, event, line: -1 });
  if (found.rows.length > begin) found.shownEvents.push(event);
}

function layOutMoment(moment, found) {
  let row = -1;
  for (const it of linesAt(moment)) {
    found.rowOfLine[it.index] = found.rows.length - (lineFits(it) ? 0 : 0.5);
    if (!lineFits(it)) continue;
    if (row < 0) row = found.rows.length;
    found.isLineShown[it.index] = 1;
    found.rows.push({ type: LINE_ROW, event: moment.event, line: it.index });
  }
  found.rowOfMoment[moment.index] = row < 0 ? found.rows.length - 0.5 : row;
}

// The rows in pieces of 64, each with the arrows and bars that cross it, so that a window finds its own at once.
const CHUNK = 64;
const FAR = 40; // an arrow across more pieces than this stands in a list of its own

function chunksOf(found) {
  const chunks = { arrows: new Map(), bars: new Map(), farArrows: [], farBars: [] };
  const put = (map, far, from, to, item) => {
    const first = Math.floor(from / CHUNK), last = Math.floor(to / CHUNK);
    if (last - first > FAR) { far.push(item); return; }
    for (let at = first; at <= last; at++) map.has(at) ? map.get(at).push(item) : map.set(at, [item]);
  };
  for (const number of found.arrows) {
    const message = messages[number];
    const rows = [found.rowOfLine[message.line], ...message.places.map((at) => found.rowOfMoment[at])];
    put(chunks.arrows, chunks.farArrows, Math.max(0, Math.min(...rows)), Math.max(...rows), number);
  }
  for (const command of commands.values()) {
    const to = command.last >= 0 ? found.rowOfLine[command.last] : command.replacedBy ? found.rowOfEvent[command.replacedBy] : found.rows.length;
    put(chunks.bars, chunks.farBars, found.rowOfEvent[command.event], Math.max(to, found.rowOfEvent[command.event]), command.event);
  }
  return chunks;
}

function inWindow(map, far, first, last) {
  const found = new Set(far);
  for (let at = Math.floor(first / CHUNK); at <= Math.floor(last / CHUNK); at++) for (const it of map.get(at) || []) found.add(it);
  return [...found];
}
