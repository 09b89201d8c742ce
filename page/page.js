// The page: what is written in the text field is played or judged by the module, and shown beside it and as a picture.
"use strict";

// Of a longer script the picture and the list of answers have the first lines.
const DRAWN = 500;
const LISTED = 5000;

const BROWSERS =
  "This browser has no 64-bit WebAssembly memory, in which the proved code runs. Take a newer Chromium, Chrome, Edge or Firefox; it was tried in Chromium 156.";

const part = (id) => document.getElementById(id);

/** An element with these children. */
function made(tag, className, ...children) {
  const element = document.createElement(tag);
  element.className = className;
  element.append(...children);
  return element;
}

/** A reply in its parts. */
function replyOf(text) {
  const at = text.indexOf(" | ");
  const wakers = text.slice(at + 3);
  return { text, answer: text.slice(0, at), wakers: wakers === "-" ? [] : wakers.split(" ") };
}

function linesOf(text) {
  const lines = text.split("\n");
  return lines[lines.length - 1] === "" ? lines.slice(0, -1) : lines;
}

/** A line of a recorded run in its parts, as it is drawn. */
function entryOf(line) {
  const at = line.indexOf(" => ");
  return at < 0 ? { command: line } : { command: line.slice(0, at), reply: line.slice(at + 4) };
}

function isRecorded(text) {
  return linesOf(text).slice(1).some((line) => line.includes(" => "));
}

/** The lines of a script that were answered. */
function eventsOf(commands, replies) {
  return replies.map((reply, place) => ({ number: place + 2, line: commands[place + 1], ...reply }));
}

/** What is said where there is no room, of a text of at most so many MiB. */
function tooLong(result, most) {
  const what = result.isTextTooLong ? `The text is longer than ${most} MiB` : "The answers are longer than 1 MiB";
  return { isWrong: true, said: [`${what}, for which this page has no room.`] };
}

function noCommand(lines, number, primitive) {
  const line = lines[number - 1] ?? "";
  const command = number === 1 ? line : entryOf(line).command;
  const what = number === 1 ? "names no primitive" : `is no command of ${primitive}`;
  const hint = hintOf(number === 1 ? undefined : primitive, command);
  return { isWrong: true, line: number, said: [`Line ${number} ${what}: `, made("code", "", command), `. ${hint}`] };
}

function counted(count, name) {
  return count === 1 ? `1 ${name}` : `${count} ${name}s`;
}

/** What is shown of a script. */
function playedOf(machine, text) {
  const lines = linesOf(text);
  const result = machine.call("play", text);
  const replies = linesOf(result.texts[0]).map(replyOf);
  const primitive = (lines[0] ?? "").split(" ")[0];
  const shown = { primitive: lines[0] ?? "", events: eventsOf(lines, replies), replies, message: undefined, script: text };
  if (result.status === 0) {
    shown.message = { isWrong: false, said: [`${counted(replies.length, "command")} of ${lines[0]}, each answered.`] };
  } else {
    shown.message = result.status === 2 ? noCommand(lines, result.line, primitive) : tooLong(result, 1);
  }
  return shown;
}

function noReply(number) {
  return { isWrong: true, line: number, said: [`Line ${number} has no reply. It is written as a command, =>, an answer, | and wakers or a dash.`] };
}

function another(primitive, number, recorded, given) {
  const said = [`Not a run of ${primitive}: line ${number} was answered `, made("code", "", recorded), ", and the primitive answers ", made("code", "", given), "."];
  return { isWrong: true, line: number, recorded, given, said };
}

/** What is said of a recorded run that the module has judged. */
function verdictOf(lines, found) {
  if (found.status === 0) {
    return { isWrong: false, said: [`A run of ${lines[0]}: ${counted(found.commands, "command")}, each answered as the primitive does.`] };
  }
  if (found.status === 1) {
    return another(lines[0], found.line, found.recorded, found.given);
  }
  if (found.status === 2) {
    return found.unanswered > 0 ? noReply(found.unanswered) : noCommand(lines, found.line, lines[0].split(" ")[0]);
  }
  return tooLong(found, 3);
}

/** What is shown of a recorded run. */
function checkedOf(machine, text) {
  const lines = linesOf(text);
  const entries = lines.map((line, place) => (place === 0 ? { command: line } : entryOf(line)));
  const script = entries.map((it) => it.command).join("\n");
  const verdict = verdictOf(lines, machine.check(text));
  const given = linesOf(machine.call("play", script).texts[0]).map(replyOf);
  const events = [];
  for (const [place, { command, reply }] of entries.entries()) {
    if (place === 0 || reply === undefined) {
      continue;
    }
    const event = { number: place + 1, line: command, ...replyOf(reply.includes(" | ") ? reply : `${reply} | -`) };
    event.isAfter = verdict.line !== undefined && event.number > verdict.line;
    if (verdict.given !== undefined && event.number === verdict.line) {
      event.given = replyOf(verdict.given);
    }
    events.push(event);
  }
  const judged = verdict.line === undefined ? given : given.slice(0, verdict.line - (verdict.given === undefined ? 2 : 1));
  return { primitive: lines[0], events, replies: judged, message: verdict, script };
}

function showAnswers(lines, shown) {
  const { replies, message } = shown;
  const listed = lines.slice(0, LISTED);
  const answers = listed.map((_, place) => {
    const reply = place > 0 ? replies[place - 1] : undefined;
    const isHere = message.line === place + 1;
    if (reply === undefined) {
      return made("li", isHere ? "fault" : "", isHere ? "?" : "");
    }
    const isNobody = reply.wakers.length === 0;
    const item = made(
      "li",
      isHere ? "wrong" : "",
      made("span", "answer", reply.answer),
      made("span", "bar-sign", " | "),
      made("span", isNobody ? "wakers nobody" : "wakers", isNobody ? "-" : reply.wakers.join(" ")),
    );
    item.title = reply.text;
    return item;
  });
  part("answers").replaceChildren(...answers);
  part("numbers").textContent = listed.map((_, place) => place + 1).join("\n");
}

function showPicture(shown) {
  const events = shown.events.slice(0, DRAWN);
  const width = part("picture").clientWidth;
  part("picture").replaceChildren(...(events.length === 0 ? [] : picturesOf(shown.primitive, events, width)));
  part("legend").hidden = events.length === 0;
  part("cut").hidden = events.length === shown.events.length;
  part("cut").textContent = `The picture has the first ${DRAWN} commands, the list at most ${LISTED} lines.`;
  for (const item of document.querySelectorAll(".of-runs")) {
    item.hidden = shown.message.given === undefined;
  }
}

function showMessage(message) {
  part("message").className = message.isWrong ? "message wrong" : "message";
  part("message").replaceChildren(...message.said);
}

/** Why each waker was handed out, line by line, up to a line that is wrong. */
function reasonsOf(machine, shown) {
  const reasons = [];
  const result = machine.call("explain", shown.script, 2);
  for (const note of linesOf(result.texts[1])) {
    const [, number, text] = /^([0-9]+): (.*)$/.exec(note) ?? [];
    // (the other notes begin with a word)
    if (/^[0-9]/.test(text ?? "") && Number(number) <= (shown.message.line ?? Number(number))) {
      reasons.push({ number, text });
    }
  }
  if (result.status === 4) {
    reasons.push({ number: reasons.at(-1)?.number ?? 1, text: "there is no room for further notes" });
  }
  return reasons;
}

function showReasons(machine, shown) {
  const reasons = machine.has("explain") && shown.message.line !== 1 ? reasonsOf(machine, shown) : [];
  part("why").hidden = reasons.length === 0;
  part("reasons").replaceChildren(...reasons.map((it) => made("li", "", `Line ${it.number}: ${it.text}`)));
}

/** The words of the language, with those of one primitive. */
function showWords(primitive) {
  const samples = (list) => list.flatMap((it) => [made("code", "", sampleOf(it)), " "]);
  const openings = commandsOf(OPENINGS).flatMap((it) => [made("code", "", sampleOf(it)), ", "]);
  part("openings").replaceChildren(...openings.slice(0, -1));
  const language = LANGUAGE[primitive];
  part("commands").hidden = language === undefined;
  if (language !== undefined) {
    const asks = commandsOf(language.asks).map((it) => ({ name: `start 0 ${it.name}`, letters: it.letters }));
    part("commands").replaceChildren(
      made("dt", "", "requests"),
      made("dd", "", ...(asks.length > 0 ? samples(asks) : ["none"])),
      made("dt", "", "calls"),
      made("dd", "", ...samples(commandsOf(language.calls))),
    );
  }
}

/** The page with its module. */
class Page {
  constructor(machine) {
    this.machine = machine;
    this.shown = undefined;
    part("text").addEventListener("input", () => this.update());
    part("example").addEventListener("change", () => this.choose(part("example").selectedIndex));
    new ResizeObserver(() => this.shown && this.redraw()).observe(part("picture"));
    this.width = undefined;
  }

  choose(place) {
    const example = EXAMPLES[place];
    part("about").textContent = example.about;
    part("text").value = example.text;
    this.update();
  }

  update() {
    const text = part("text").value;
    const lines = text.split("\n");
    part("editor").classList.toggle("is-run", isRecorded(text));
    this.shown = isRecorded(text) ? checkedOf(this.machine, text) : playedOf(this.machine, text);
    // (so high that nothing is hidden, and a line to write on)
    part("text").rows = Math.min(Math.max(lines.length + 1, 8), LISTED);
    showAnswers(lines, this.shown);
    showMessage(this.shown.message);
    showReasons(this.machine, this.shown);
    showWords((lines[0] ?? "").split(" ")[0]);
    this.width = part("picture").clientWidth;
    showPicture(this.shown);
  }

  redraw() {
    if (part("picture").clientWidth !== this.width) {
      this.width = part("picture").clientWidth;
      showPicture(this.shown);
    }
  }
}

function stop(text) {
  part("stopped").textContent = text;
  part("stopped").hidden = false;
  document.querySelector("main").hidden = true;
}

async function begin() {
  if (!Machine.isSupported()) {
    stop(BROWSERS);
    return;
  }
  const page = new Page(await Machine.load(MODULE));
  part("example").append(...EXAMPLES.map((it) => new Option(it.title)));
  page.choose(0);
}

begin().catch((error) => stop(`The page doesn't work here: ${error}`));
