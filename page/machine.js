// The proved code, as the browser runs it: a module with a 64-bit memory, in which a text is put and a row of answers is read.
"use strict";

// The layout of what the module's functions take. A row is its length and its bytes. What is found of a recorded run is three numbers,
// and behind them two rows, the recorded and the given reply.
const ROOM = 1 << 20;
const ROW = 8 + ROOM;
const LINE_AT = 0;
const FOUND_AT = 8;
const RECORDED_AT = FOUND_AT + 24;
const GIVEN_AT = RECORDED_AT + ROW;
const ROWS_AT = [0, 1, 2].map((place) => GIVEN_AT + (1 + place) * ROW);
const TEXT_AT = GIVEN_AT + 4 * ROW;
const PAGE_BYTES = 65536;

// The greatest length of a script, and of a recorded run, which has a script, its replies and an arrow on each line.
const MOST_SCRIPT = ROOM;
const MOST_RUN = 3 * ROOM;

// A module of nothing but a 64-bit memory.
const MEMORY64 = new Uint8Array([0, 0x61, 0x73, 0x6d, 1, 0, 0, 0, 5, 3, 1, 4, 1]);

/** The module's functions `play`, `explain` and `check`. */
class Machine {
  static isSupported() {
    return typeof WebAssembly === "object" && WebAssembly.validate(MEMORY64);
  }

  /** The module that `base64` writes. */
  static async load(base64) {
    const bytes = Uint8Array.from(atob(base64), (letter) => letter.charCodeAt(0));
    const { instance } = await WebAssembly.instantiate(bytes, {});
    return new Machine(instance.exports);
  }

  constructor(exports) {
    this.exports = exports;
    // (the pages behind those that the module starts with are ours alone)
    this.base = exports.memory.buffer.byteLength;
    exports.memory.grow(BigInt(Math.ceil((TEXT_AT + MOST_RUN) / PAGE_BYTES)));
    this.bytes = new Uint8Array(exports.memory.buffer, this.base);
    this.numbers = new DataView(exports.memory.buffer, this.base);
  }

  has(name) {
    return name in this.exports;
  }

  // Puts a text into the memory, and gives its length, if it has at most so many bytes.
  put(text, most) {
    const { read, written } = new TextEncoder().encodeInto(text, this.bytes.subarray(TEXT_AT, TEXT_AT + most));
    return read < text.length ? undefined : BigInt(written);
  }

  at(place) {
    return BigInt(this.base + place);
  }

  number(place) {
    return Number(this.numbers.getBigUint64(place, true));
  }

  clear(places) {
    for (const place of places) {
      this.numbers.setBigUint64(place, 0n, true);
    }
  }

  /**
   * Calls a function of the module that writes so many rows. It gives the `status` that the tool `esync` has, the `line` of a fault or 0,
   * and the `texts` that were written.
   */
  call(name, text, rows = 1) {
    const length = this.put(text, MOST_SCRIPT);
    if (length === undefined) {
      return { status: 4, line: 0, texts: ["", ""], isTextTooLong: true };
    }
    const places = ROWS_AT.slice(0, rows);
    this.clear(places);
    const status = this.exports[name](this.at(TEXT_AT), length, ...places.map((it) => this.at(it)), this.at(LINE_AT));
    return { status, line: this.number(LINE_AT), texts: places.map((place) => this.row(place)), isTextTooLong: false };
  }

  /**
   * Has the module judge a recorded run. It gives the `status` that `esync check` has. At 0 there is the number of `commands`, and at 1 the
   * `line` whose reply is another, with the `recorded` reply and the `given` one. At 2 the `line` is no command, or else the `unanswered`
   * one has no reply.
   */
  check(text) {
    const length = this.put(text, MOST_RUN);
    if (length === undefined) {
      return { status: 4, isTextTooLong: true };
    }
    this.clear([...ROWS_AT, RECORDED_AT, GIVEN_AT]);
    const status = this.exports.check(this.at(TEXT_AT), length, ...ROWS_AT.map((it) => this.at(it)), this.at(FOUND_AT));
    const [commands, line, unanswered] = [0, 8, 16].map((offset) => this.number(FOUND_AT + offset));
    return { status, commands, line, unanswered, recorded: this.row(RECORDED_AT), given: this.row(GIVEN_AT), isTextTooLong: false };
  }

  // What stands in the row at this place.
  row(place) {
    return new TextDecoder("utf-8", { ignoreBOM: true }).decode(this.bytes.subarray(place + 8, place + 8 + this.number(place)));
  }
}
