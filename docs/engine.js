"use strict";
// The proved worlds and audits as a WebAssembly module, for play.html: in a worker of the page's own, or where it stands.

/** What calls answer, as crates/world_page has it. */
const STATUS = { DONE: 0, MEMORY: 1, ARGUMENT: 2, ROOM: 3 };
/** A handle is a word that tells whether it holds something, and its place; what a call tells is a size, a number, and whether there is one. */
const HANDLE = 16, FOUND = 24, WASM_PAGE = 65536;
/** The most memory that a run may take: a few gigabytes are more than any scenario of the page comes to. */
const MOST_MEMORY = 4 * 2 ** 30;

/** Whether this browser has 64-bit memories. */
function has64BitMemory() {
  try {
    return Boolean(new WebAssembly.Memory({ address: "i64", initial: 1n, maximum: 1n }));
  } catch {
    return false;
  }
}

/** The module's bytes, from their base64. */
function moduleBytes({ base64 }) {
  const text = atob(base64), bytes = new Uint8Array(text.length);
  for (let place = 0; place < text.length; place++) bytes[place] = text.charCodeAt(place);
  return bytes;
}

/** Starts the module. It is given nothing of the page but its memory. */
async function startEngine(bytes, least, most = MOST_MEMORY) {
  const memory = new WebAssembly.Memory({ address: "i64", initial: BigInt(Math.ceil(least / WASM_PAGE)), maximum: BigInt(Math.ceil(most / WASM_PAGE)) });
  const { instance } = await WebAssembly.instantiate(bytes, { env: { memory } });
  return new Engine(instance.exports, memory);
}

/** One text of scenarios at a time, and questions about bytes. Each call answers a status; none throws for want of memory. */
class Engine {
  constructor(calls, memory) {
    this.calls = calls;
    this.memory = memory;
    this.handle = this.room(HANDLE + FOUND);
    this.found = this.handle && this.handle + BigInt(HANDLE);
    this.answer = { at: 0n, size: 0 };
    if (this.handle) this.bytes(this.handle, HANDLE + FOUND).fill(0);
  }

  room(size) {
    return this.calls.voumlis_page_room(BigInt(size));
  }

  bytes(at, size) {
    return new Uint8Array(this.memory.buffer, Number(at), size);
  }

  told() {
    const view = new DataView(this.memory.buffer, Number(this.found), FOUND);
    return { size: Number(view.getBigUint64(0, true)), named: view.getUint32(16, true) ? Number(view.getBigUint64(8, true)) : null };
  }

  /** Calls with these bytes in the module's memory for as long as the call lasts. */
  lent(bytes, call) {
    const at = this.handle && this.room(bytes.length);
    if (!at) return STATUS.MEMORY;
    this.bytes(at, bytes.length).set(bytes);
    try {
      return call(at, BigInt(bytes.length));
    } finally {
      this.calls.voumlis_page_free(at);
    }
  }

  /** Calls with room for the answer, again where it was too small, and gives it as text. */
  asked(call) {
    if (!this.handle) return { status: STATUS.MEMORY, text: "", named: null };
    let status = call(this.answer.at, BigInt(this.answer.size));
    if (status === STATUS.ROOM) {
      const size = this.told().size * 2;
      if (this.answer.at) this.calls.voumlis_page_free(this.answer.at);
      const at = this.room(size);
      this.answer = { at, size: at ? size : 0 };
      status = at ? call(at, BigInt(size)) : STATUS.MEMORY;
    }
    const { size, named } = this.told();
    return { status, text: status === STATUS.DONE ? new TextDecoder().decode(this.bytes(this.answer.at, size)) : "", named };
  }

  /** Opens scenarios in place of what was open. */
  open(text, json = true) {
    this.close();
    const bytes = typeof text === "string" ? new TextEncoder().encode(text) : text;
    return this.lent(bytes, (at, size) => this.calls.voumlis_page_open(json ? 1 : 0, at, size, this.handle, this.found));
  }

  /** Goes on for so many events: the lines since, and the status where nothing more is to come. */
  goOn(events) {
    if (!this.handle) return { status: STATUS.MEMORY, text: "", ended: null };
    const status = this.calls.voumlis_page_go_on(this.handle, events, this.found), ended = this.told().named;
    return { ...this.lines(status), ended: status === STATUS.DONE ? ended : null };
  }

  /** Ends the scenario that is played: its table, and what the audit finds so far. */
  stop() {
    return this.lines(this.handle ? this.calls.voumlis_page_stop(this.handle, this.found) : STATUS.MEMORY);
  }

  lines(before) {
    const { status, text } = this.asked((at, size) => this.calls.voumlis_page_lines(this.handle, at, size, this.found));
    return { status: before || status, text };
  }

  close() {
    return this.handle ? this.calls.voumlis_page_close(this.handle) : STATUS.MEMORY;
  }

  /** The lines of `simplex audit` over reports. */
  audit(members, reports) {
    return this.about(reports, (bytes, room) => this.calls.voumlis_page_audit(members, ...bytes, ...room, this.found));
  }

  /** The line of `simplex_tool check` on a member's record. */
  record(members, member, stored) {
    return this.about(stored, (bytes, room) => this.calls.voumlis_page_record(members, member, ...bytes, ...room, this.found));
  }

  about(bytes, call) {
    let answer = { status: STATUS.MEMORY, text: "", named: null };
    this.lent(bytes, (...lent) => { answer = this.asked((...room) => call(lent, room)); });
    return answer;
  }
}

/** In the worker: what the page asks, one thing behind another. */
function serveEngine() {
  let engine = null, last = Promise.resolve(), trouble;
  onmessage = ({ data }) => { last = last.then(() => serve(data)); };
  async function serve({ number, ask, with: given }) {
    let answer;
    try {
      if (ask === "start") engine = await startEngine(...given);
      answer = ask === "start" ? STATUS.DONE : engine[ask](...given);
      if (typeof answer === "number") answer = { status: answer };
    } catch (error) {
      trouble ??= String(error); // what failed first is why the rest does
      answer = { status: STATUS.MEMORY, text: "", trouble };
    }
    postMessage({ number, answer });
  }
}

/** The module in a worker of its own: each call answers later. A worker may not be read from a file's folder, so it is made of this text. */
class Remote {
  constructor(source, bytes, least) {
    const place = URL.createObjectURL(new Blob([`${source}\nserveEngine();`], { type: "text/javascript" }));
    this.worker = new Worker(place);
    this.waiting = new Map();
    this.number = 0;
    this.worker.onmessage = ({ data: { number, answer } }) => {
      this.waiting.get(number)(answer);
      this.waiting.delete(number);
    };
    this.ask("start", bytes, least);
  }

  ask(ask, ...given) {
    const number = this.number++;
    return new Promise((done) => {
      this.waiting.set(number, done);
      this.worker.postMessage({ number, ask, with: given });
    });
  }

  end() {
    this.worker.terminate();
  }
}

/** What a worker needs of this file. */
const ENGINE_SOURCE = [
  `"use strict"; const STATUS = ${JSON.stringify(STATUS)}, HANDLE = ${HANDLE}, FOUND = ${FOUND}, WASM_PAGE = ${WASM_PAGE}, MOST_MEMORY = ${MOST_MEMORY};`,
  startEngine, Engine, serveEngine,
].map(String).join("\n");
