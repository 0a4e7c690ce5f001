// The right side: the picked event or message in words, and how things stand then.

const MOST_ITEMS = 120; // of a list; the rest is counted, and shown when asked for

function link(target, text, number) {
  const made = html("a", "", text);
  made.href = `#${target}-${number}`;
  return made;
}

const eventLink = (event) => link("event", event === START ? "the start" : event === LAST ? "the end" : `event ${event}`, event === LAST ? "end" : event);
const messageLink = (number) => link("message", number, number);

function paragraph(className, ...parts) {
  const made = html("p", className);
  made.append(...parts.map((it) => (typeof it === "string" ? document.createTextNode(visible(it)) : it)));
  return made;
}

function transactionWord(of) {
  return of < 0 ? document.createTextNode("a transaction that isn't known") : html("span", `of t${of % 8}`, nameOf(of));
}

// Appends the first items of a list, and a button for the others.
function appendList(place, items, make) {
  let shown = 0;
  const more = html("button");
  const showMore = () => {
    more.remove();
    for (const it of items.slice(shown, shown + MOST_ITEMS)) place.append(make(it));
    shown = Math.min(items.length, shown + MOST_ITEMS);
    if (shown < items.length) {
      more.textContent = `${items.length - shown} more`;
      place.append(more);
    }
  };
  more.addEventListener("click", showMore);
  showMore();
}

function table(rows) {
  const made = html("table");
  for (const [head, ...parts] of rows) {
    const row = html("tr"), cell = html("td");
    cell.append(...parts.map((it) => (typeof it === "string" ? document.createTextNode(visible(it)) : it)));
    row.append(html("th", "", head), cell);
    made.append(row);
  }
  return made;
}

function fillPanel() {
  const panel = byId("right");
  panel.replaceChildren();
  panel.scrollTop = 0;
  if (picked.event < 0) {
    panel.append(html("p", "title", "Pick an event or a message"),
      html("p", "", "Click on a line of the schedule, an arrow, a bar or a sign. The keys j and k go on and back, / searches, and Esc lets go."));
    appendSummary(panel);
    return;
  }
  if (picked.message >= 0) appendMessage(panel, messages[picked.message]);
  appendEvent(panel);
  appendStanding(panel);
  appendMessages(panel);
}

function appendSummary(panel) {
  const commits = lines.filter((it) => it.kind === "commit").length;
  const missed = (how) => messages.filter((it) => it.how === how).length;
  panel.append(html("h2", "", "The run"), table([
    ["events", String(data.events.length)],
    ["lines", String(lines.length)],
    ["commits", String(commits)],
    ["messages", data.traced ? `${messages.length}: ${missed("lost")} lost, ${missed("ignored")} ignored, ${missed("waits")} never handed over` : "unknown, for want of --trace"],
  ]));
  const asReplayed = endsAsReplayed();
  if (asReplayed === false) panel.append(html("p", "cycle", "The files at the end aren't those of the named commits alone. A run from images begins with files that the report doesn't name."));
}

// ---- a message

function appendMessage(panel, message) {
  const { cones } = picked;
  panel.append(html("p", "title", `Message ${message.number}: ${message.sender} to ${message.receiver}, ${deedOfMessage(message)}`),
    html("p", "", lines[message.line].words), html("span", "raw", lines[message.line].raw));
  const rows = [["transaction", transactionWord(message.of)]];
  if (message.command) rows.push(["caused by", `${textOfEvent(message.command)} (`, eventLink(message.command), ")"]);
  else rows.push(["caused by", causeWords(message)]);
  rows.push(["sent", eventLink(message.event)]);
  rows.push([HOW[message.how].split(",")[0], ...(message.places.length ? message.places.flatMap((at) => [eventLink(moments[at].event), " "]) : ["\u2013"])]);
  const before = moments[momentOfLine[message.line]].message;
  if (before >= 0) rows.push(["sent on taking", messageLink(before), moments[momentOfLine[message.line]].known ? "" : " (or another one: the report leaves it open)"]);
  const answers = message.places.flatMap((at) => linesAt(moments[at])).filter((it) => it.kind === "message");
  if (answers.length) rows.push(["led to", ...answers.flatMap((it) => [messageLink(it.number), " "])]);
  panel.append(table(rows), html("h2", "", "Causes"));
  panel.append(paragraph("", `Causal past: ${cones.pastMessages.size} messages were taken before it was sent by those who led to it. `, numbersOf(cones.pastMessages)));
  panel.append(paragraph("", `Causal future: ${cones.futureMessages.size} messages were sent after it was taken by those whom it reached. `, numbersOf(cones.futureMessages)));
}

function causeWords(message) {
  const moment = moments[momentOfLine[message.line]];
  if (moment.message >= 0) return "what isn't known of the message that was taken";
  return moment.part >= FOLDED_PARTS ? "a round in which all send again" : "no message: a step or a question of its server";
}

function numbersOf(set) {
  const made = html("span", "faint");
  const numbers = [...set].sort((a, b) => a - b);
  for (const it of numbers.slice(0, 60)) made.append(messageLink(it), " ");
  if (numbers.length > 60) made.append(`and ${numbers.length - 60} more`);
  return made;
}

// ---- an event

function appendEvent(panel) {
  const event = picked.event, own = linesOf(event);
  const where = events[event].line ? `, line ${events[event].line} of the schedule` : "";
  panel.append(html("p", "title", event === START ? "The start" : event === LAST ? "The end" : `Event ${event}${where}`));
  if (events[event].line) panel.append(html("p", "raw", textOfEvent(event)));
  const command = commands.get(event);
  if (command) {
    const parts = [`${command.client}'s command`, ...(command.of < 0 ? [] : [" in ", transactionWord(command.of)]), `: ${outcomeWords(command)}`];
    if (command.last >= 0 && lines[command.last].event !== event) parts.push(" in ", eventLink(lines[command.last].event));
    panel.append(paragraph("", ...parts));
  }
  const told = own.filter((it) => it.kind !== "message");
  const makeLine = (line) => {
    const made = html("div");
    made.append(html("p", "", line.words), html("span", "raw", line.raw));
    return made;
  };
  if (told.length) panel.append(html("h2", "", "What is told"));
  appendList(panel, told, makeLine);
  if (!own.length) panel.append(html("p", "faint", event > shownLast ? "The report was cut before this event." : "The report has no line of this event."));
}

// What the event sends and hands over; last, since it can be long.
function appendMessages(panel) {
  const event = picked.event, sent = linesOf(event).filter((it) => it.kind === "message");
  if (sent.length) panel.append(html("h2", "", `Messages sent: ${sent.length}`));
  appendList(panel, sent, messageRow);
  const taken = momentsOf(event).filter((it) => it.message >= 0);
  if (taken.length) panel.append(html("h2", "", `Messages handed over: ${taken.length}`), numbersOf(new Set(taken.map((it) => it.message))));
  if (!data.traced) return;
  const { past, future } = conesOfEvent(event);
  panel.append(html("h2", "", "Causes"), paragraph("faint", `Causal past: ${past.size} steps of clients and servers; causal future: ${future.size}.`));
}

function messageRow(line) {
  const message = messages[line.number];
  const parts = [messageLink(message.number), ` ${message.sender} to ${message.receiver}, ${deedOfMessage(message)} `];
  if (message.of >= 0) parts.push("of ", transactionWord(message.of));
  if (message.how !== "taken") parts.push(`: ${HOW[message.how]}`);
  return paragraph("", ...parts);
}

// ---- how things stand

function appendStanding(panel) {
  const event = Math.min(picked.event, shownLast), now = standingAfter(event);
  panel.append(html("h2", "", `How things stand after ${event === START ? "the start" : event === LAST ? "the end" : "event " + event}, by the lines`));
  panel.append(table([...now.servers].map(([name, it]) => [name, it.up ? `up, in epoch ${it.epoch}` : "down"])));
  panel.append(table([...now.clients].map(([name, it]) => [name, ...wordsOfClient(it)])));
  if (now.waits.length) appendWaits(panel, now.waits);
  if (now.unanswered.length) {
    panel.append(html("h2", "", "Votes without an outcome yet"));
    for (const it of now.unanswered) panel.append(paragraph("", `${it.sender} for `, transactionWord(it.of), ", message ", messageLink(it.number)));
  }
  panel.append(html("h2", "", `Commits so far: ${now.commits.length}`));
  appendList(panel, now.commits, (line) => paragraph("", transactionWord(line.of), " in ", eventLink(line.event)));
  const files = listOfFiles(now.files);
  panel.append(html("h2", "", "Files, as these commits leave them"));
  if (!files.length) panel.append(html("p", "faint", "none"));
  appendList(panel, files, ([server, file, blocks]) => {
    const made = html("div");
    made.append(html("p", "", `${server} file ${file}${blocks.length ? "" : ", empty"}`));
    for (const [block, hex] of blocks) made.append(html("span", "raw", `block ${block}: ${shortened(hex, 80)}`));
    return made;
  });
}

function wordsOfClient(client) {
  if (client.of < 0 && !client.command) return ["no transaction"];
  const parts = client.of < 0 ? ["no transaction"] : ["in ", transactionWord(client.of)];
  if (client.command) parts.push(`; outstanding: ${textOfEvent(client.command.event).split(" ").slice(1).join(" ")} (`, eventLink(client.command.event), ")");
  return parts;
}

function appendWaits(panel, waits) {
  panel.append(html("h2", "", "Who waits for whom"));
  for (const it of waits) {
    const holder = clientOf(it.by);
    panel.append(paragraph(it.inCycle ? "cycle" : "", it.inCycle ? "\u21bb in a cycle: " : "", `${it.client}, in `, transactionWord(it.of), `, waits at ${it.line.server} for ${it.line.unit}, which `,
      it.by >= 0 ? transactionWord(it.by) : it.line.by, ` holds${holder ? ", of " + holder : ""} (told in `, eventLink(it.line.event), ")"));
  }
}
