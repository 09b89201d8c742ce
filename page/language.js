// The words of the script language, for hints alone: what a line says is settled by the module.
//
// A command is its name and, behind a colon, a letter for each word: k a number, v a value, n a number of bytes, b bytes,
// c a capacity, 1 the capacity 1, h a number of subscribers or publishers; K, V and H may be missing, and what is behind.
"use strict";

const OPENINGS =
  "channel:c max:c min:c pubsub:cKHh signal:1 greedy:1k fair:ck pipe:c once:1 lazy:1v zerocopy:c mutex:1vv watch:cV";

const REQUESTS = "poll:kk end:k";

const CHANNEL = {
  asks: "send:v receive send-ready receive-ready",
  calls: "try-send:v try-receive len free clear",
};

const LANGUAGE = {
  channel: CHANNEL,
  max: CHANNEL,
  min: CHANNEL,
  pubsub: {
    asks: "publish:kv message:k message-pure:k stream:k",
    calls:
      "join:k publisher:k leave:k retire:k try-publish:kv next:k next-pure:k available:k immediate:v len free clear",
  },
  signal: { asks: "wait", calls: "signal:v reset try-take signaled" },
  greedy: { asks: "acquire:k acquire-all:k", calls: "try:kk try-all:kk disarm:k release:k set:k permits" },
  fair: { asks: "acquire:k acquire-all:k", calls: "try:kk try-all:kk disarm:k release:k set:k permits" },
  once: { asks: "get", calls: "try-get init:v get-or-init:v take is-set" },
  lazy: { asks: "", calls: "get into" },
  mutex: { asks: "lock", calls: "try-lock:k read:k write:kvv write-part:kv map:k" },
  watch: {
    asks: "get:k changed:k get-below:kv changed-below:kv",
    calls:
      "receiver:k anon:k leave:k clear send:v modify:v modify-if:v try-get get:k changed:k get-below:kv changed-below:kv id contains",
  },
  zerocopy: {
    asks: "send receive",
    calls:
      "try-send try-receive write:v done-send done-receive end-send end-receive clear-send clear-receive len free",
  },
  pipe: {
    asks: "write:b write-all:b read:n fill",
    calls: "try-write:b try-read:n try-fill consume:k len free clear",
  },
};

const WORDS = { k: "0", v: "7", n: "1", b: "1,2", c: "2", 1: "1", K: "", V: "", H: "", h: "" };

/** The commands among these, each as its name and the letters of its words. */
function commandsOf(list) {
  return list
    .split(" ")
    .filter((it) => it)
    .map((it) => {
      const [name, letters = ""] = it.split(":");
      return { name, letters };
    });
}

/** A command as it may be written. */
function sampleOf({ name, letters }) {
  return [name, ...[...letters].map((letter) => WORDS[letter]).filter((word) => word)].join(" ");
}

/** How many letters lie between two names. */
function distance(one, other) {
  let row = [...Array(other.length + 1).keys()];
  for (const [i, letter] of [...one].entries()) {
    const next = [i + 1];
    for (const [j, its] of [...other].entries()) {
      next.push(Math.min(row[j + 1] + 1, next[j] + 1, row[j] + (letter === its ? 0 : 1)));
    }
    row = next;
  }
  return row[other.length];
}

function nearestTo(name, commands) {
  const near = commands
    .map((it) => ({ name: it.name, far: distance(name, it.name) }))
    .filter((it) => it.far <= 2)
    .sort((one, other) => one.far - other.far);
  return near.length > 0 ? `; did you mean ${near[0].name}?` : ".";
}

/** What is wrong with a line that is no command of this primitive; line 1 has none before it. */
function hintOf(primitive, line) {
  if (line === "") {
    return "An empty line is no command.";
  }
  if (/\s\s|^\s|\s$|\t|\r/.test(line)) {
    return "Words are separated by one space, with none at either end of a line.";
  }
  if (/[^\x20-\x7e]/.test(line)) {
    return "A line has ASCII characters alone.";
  }
  if (line.length > 16640) {
    return "A line has at most 16640 bytes.";
  }
  const words = line.split(" ");
  const isOpening = primitive === undefined;
  const language = LANGUAGE[primitive] ?? { asks: "", calls: "" };
  const isAsk = words[0] === "start" && !isOpening;
  const commands = commandsOf(isOpening ? OPENINGS : isAsk ? language.asks : `${REQUESTS} ${language.calls}`);
  const name = words[isAsk ? 2 : 0];
  if (isAsk && name === undefined) {
    return "It is written as start, the number of a request, and what is asked.";
  }
  const known = commands.find((it) => it.name === name);
  if (known === undefined) {
    if (!isOpening && !isAsk && commandsOf(language.asks).some((it) => it.name === name)) {
      return `${name} is asked by a request: start 0 ${line}.`;
    }
    const kind = isOpening ? "primitive" : isAsk ? `request of ${primitive}` : `command of ${primitive}`;
    return `No ${kind} is called ${name}${nearestTo(name, isOpening || isAsk ? commands : [...commands, { name: "start" }])}`;
  }
  if (/h/.test(known.letters) && isOpening) {
    const more = `${sampleOf(known)} 0 4 4`;
    return `It is written as ${sampleOf(known)}, with a capacity of 1 to 4096, or as ${more}, with the first message's number and 0 to 16 subscribers and publishers.`;
  }
  if (/c/.test(known.letters) && isOpening) {
    return `It is written as ${sampleOf(known)}, with a capacity of 1 to 4096.`;
  }
  return `It is written as ${isAsk ? "start 0 " : ""}${sampleOf(known)}.`;
}
