// The picture: lanes for the primitive, for who calls and for each task, by its waker. A waiting task is a bar, from the poll that was
// answered Pending to the wake, or to the next poll or the end of its request. Each wake is an arrow.
"use strict";

const LINES_OF_A_PAGE = 50;
const HEAD = 62;
const ROW_HEIGHT = 44;
const MORE = 22;
const LETTER = 7.6;
const OBJECT_X = 46;
const TEXT_X = 58;

/** An element of a picture. */
function shape(tag, attributes, ...children) {
  const element = document.createElementNS("http://www.w3.org/2000/svg", tag);
  for (const [name, value] of Object.entries(attributes)) {
    element.setAttribute(name, value);
  }
  element.append(...children);
  return element;
}

/** The number that a word writes, without zeros before it, or undefined. */
function numberOf(word) {
  return /^[0-9]+$/.test(word ?? "") ? BigInt(word).toString() : undefined;
}

/** Who gives the command of a line: a task, who drops a request, or who calls. */
function giverOf(line) {
  const [name, first, second] = line.split(" ");
  const request = numberOf(first);
  const waker = numberOf(second);
  if (name === "poll" && request !== undefined && waker !== undefined) {
    return { lane: waker, request };
  }
  return { lane: "calls", request: name === "end" ? request : undefined };
}

/** Which tasks wait, while a script goes on. */
class Waits {
  constructor() {
    this.waiting = [];
    // Of which receiver, subscriber or publisher each request is.
    this.owners = new Map();
  }

  /** Notes what a line does, and gives the waits that it ended. */
  step(event, y) {
    const { lane, request } = giverOf(event.line);
    const [name, first, ask, owner] = event.line.split(" ");
    let ended = [];
    if (request !== undefined) {
      ended = this.end((it) => it.request === request);
    }
    if (lane !== "calls" && event.answer === "Pending") {
      this.waiting.push({ request, waker: lane, from: y, isLost: false });
    }
    if (name === "start" && event.answer === "Ok") {
      this.owners.set(numberOf(first), `${ask === "publish" ? "retire" : "leave"} ${numberOf(owner)}`);
    }
    if ((name === "leave" || name === "retire") && event.answer === "Ok") {
      ended = this.end((it) => this.owners.get(it.request) === `${name} ${numberOf(first)}`);
    }
    return ended.map((it) => ({ ...it, to: y }));
  }

  end(ends) {
    const ended = this.waiting.filter(ends);
    this.waiting = this.waiting.filter((it) => !ends(it));
    return ended;
  }
}

/** The wakes that a row shows: those that were recorded or answered, and those that are missing. */
function wakesOf(event) {
  const missing = (event.given?.wakers ?? []).filter((it) => !event.wakers.includes(it));
  const isWrong = (waker) => event.given !== undefined && !event.given.wakers.includes(waker);
  return [
    ...event.wakers.map((waker) => ({ waker, kind: isWrong(waker) ? "surplus" : "right" })),
    ...missing.map((waker) => ({ waker, kind: "missing" })),
  ];
}

/** What a line that is wrong should have been answered. */
function shouldBe({ given }) {
  return given === undefined ? "" : `should be ${given.answer} | ${given.wakers.join(" ") || "-"}`;
}

function heightOf(event) {
  return ROW_HEIGHT + MORE * (wakesOf(event).length + (event.given === undefined ? 0 : 1));
}

/** Where the lanes stand on a page of this width. */
class Layout {
  constructor(lanes, events, width) {
    this.lanes = lanes;
    const longest = Math.max(12, ...events.map((it) => Math.max(it.line.length, it.answer.length, shouldBe(it).length)));
    const fits = Math.floor((width - TEXT_X - 20 - lanes.length * 54) / LETTER);
    this.shown = Math.max(14, Math.min(longest, 40, fits));
    this.left = TEXT_X + this.shown * LETTER + 36;
    const between = (width - this.left) / (lanes.length - 0.5);
    this.between = Math.max(54, Math.min(104, between));
    this.width = Math.max(this.left + (lanes.length - 0.5) * this.between, TEXT_X + 200);
  }

  x(lane) {
    return this.left + this.lanes.indexOf(lane) * this.between;
  }

  text(className, text, y) {
    const element = shape("text", { class: className, x: TEXT_X, y });
    if (text.length > this.shown) {
      element.append(shape("title", {}, text), `${text.slice(0, this.shown - 1)}…`);
    } else {
      element.append(text);
    }
    return element;
  }
}

function arrow(className, from, to, y) {
  const way = to > from ? -1 : 1;
  return shape(
    "g",
    { class: className },
    shape("path", { class: "shaft", d: `M${from} ${y}H${to}` }),
    shape("path", { class: "tip", d: `M${to} ${y}l${8 * way} -4v8z` }),
  );
}

function drawHead(primitive, layout, bottom) {
  const wide = Math.min(primitive.length, 24) * LETTER + 16;
  const head = shape(
    "g",
    {},
    shape("path", { class: "object", d: `M${OBJECT_X} 36V${bottom}` }),
    shape("rect", { class: "name", x: 8, y: 8, width: Math.max(wide, 76), height: 28, rx: 4 }),
    shape("text", { class: "label", x: 16, y: 26 }, primitive.slice(0, 24)),
  );
  for (const lane of layout.lanes) {
    const x = layout.x(lane);
    const label = lane === "calls" ? "calls" : `task ${lane}`;
    const isShort = label.length * LETTER < layout.between - 8;
    head.append(
      shape("path", { class: "lane", d: `M${x} 36V${bottom}` }),
      shape("rect", { class: "name", x: x - layout.between / 2 + 3, y: 8, width: layout.between - 6, height: 28, rx: 4 }),
      shape("text", { class: "label middle", x, y: 26 }, isShort ? label : `…${label.slice(-4)}`),
    );
  }
  return head;
}

function drawRow(event, layout, y) {
  const row = shape("g", { class: event.isAfter ? "row after" : "row" });
  const from = layout.x(giverOf(event.line).lane);
  row.append(
    shape("text", { class: "number", x: OBJECT_X - 12, y: y - 6 }, String(event.number)),
    layout.text("command", event.line, y - 6),
    arrow("call", from, OBJECT_X + 3, y),
    layout.text(event.given === undefined ? "answer" : "answer wrong", event.answer, y + 15),
  );
  let at = y + 16;
  if (event.given !== undefined) {
    at += MORE;
    row.append(layout.text("should", shouldBe(event), at - 4));
  }
  for (const { waker, kind } of wakesOf(event)) {
    at += MORE;
    const said = { right: `wakes ${waker}`, surplus: `wakes ${waker}: wrong`, missing: `no wake of ${waker}` }[kind];
    row.append(
      arrow(`wake ${kind}`, OBJECT_X + 3, layout.x(waker) - 7, at),
      layout.text(`said ${kind}`, said, at - 6),
    );
  }
  return row;
}

/** The bars of a page, of which a wait that goes on is kept in `waits`. */
function barsOf(events, waits, bottom) {
  const bars = [];
  let y = HEAD;
  for (const waiting of waits.waiting) {
    waiting.from = 36;
  }
  for (const event of events) {
    bars.push(...waits.step(event, y));
    let at = y + 16 + (event.given === undefined ? 0 : MORE);
    for (const { waker, kind } of wakesOf(event)) {
      at += MORE;
      for (const waiting of waits.waiting.filter((it) => it.waker === waker && kind === "missing")) {
        // (from here on it sleeps though it should have been woken)
        bars.push({ ...waiting, to: at });
        waiting.from = at;
        waiting.isLost = true;
      }
      if (kind !== "missing") {
        bars.push(...waits.end((it) => it.waker === waker).map((it) => ({ ...it, to: at })));
      }
    }
    y += heightOf(event);
  }
  return [...bars, ...waits.waiting.map((it) => ({ ...it, to: bottom }))];
}

function drawPage(primitive, events, waits, width) {
  const lanes = new Set(waits.waiting.map((it) => it.waker));
  for (const event of events) {
    lanes.add(giverOf(event.line).lane);
    wakesOf(event).forEach((it) => lanes.add(it.waker));
  }
  const layout = new Layout([...lanes], events, width);
  const bottom = HEAD - 20 + events.reduce((sum, event) => sum + heightOf(event), 0);
  const bars = barsOf(events, waits, bottom);
  const first = events[0]?.number ?? 2;
  const last = events[events.length - 1]?.number ?? 2;
  const size = { width: layout.width, height: bottom + 8, viewBox: `0 0 ${layout.width} ${bottom + 8}` };
  const picture = shape("svg", { ...size, role: "img", "aria-label": `${primitive}, lines ${first} to ${last}, as a picture` });
  picture.append(drawHead(primitive, layout, bottom));
  for (const bar of bars) {
    const at = { x: layout.x(bar.waker) - 5, y: bar.from, width: 10, height: Math.max(bar.to - bar.from, 1) };
    picture.append(shape("rect", { class: bar.isLost ? "bar lost" : "bar", ...at }));
  }
  let y = HEAD;
  for (const event of events) {
    picture.append(drawRow(event, layout, y));
    y += heightOf(event);
  }
  return picture;
}

/**
 * The pictures of a script, one for each 50 lines. An event is a line with its `number`, its `answer` and `wakers`; of the line of a
 * recorded run that is wrong, `given` is what the primitive answers, and `isAfter` marks the lines behind it.
 */
function picturesOf(primitive, events, width) {
  const waits = new Waits();
  const pages = [];
  for (let first = 0; first === 0 || first < events.length; first += LINES_OF_A_PAGE) {
    pages.push(drawPage(primitive, events.slice(first, first + LINES_OF_A_PAGE), waits, width));
  }
  return pages;
}
