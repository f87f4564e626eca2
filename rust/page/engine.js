"use strict";
// The engine: the module in a worker, so that the page stays quick, and can stop a computation that takes too long.

const MODULE = "ratio_sheet.wasm";
const MOST_SECONDS = 10;

// What the worker runs. It is given the compiled module first, and then questions: a call of the module, and a text for it. What the call
// gives comes back piece by piece, each as soon as it is known.
function engineMain() {
  const PAGE = 65536;
  let exports = null;
  let area = { at: 0, size: 0 };
  let id = 0;

  function take(at, length) {
    postMessage({ id, piece: new TextDecoder().decode(new Uint8Array(exports.memory.buffer, at, length)) });
  }

  // Puts a text where nobody else writes, and gives its length. Memory that a call of `grow` adds belongs to the caller.
  function put(text) {
    const bytes = new TextEncoder().encode(text);
    if (bytes.length >= area.size) {
      const pages = Math.ceil((bytes.length + 1) / PAGE);
      area = { at: exports.memory.grow(pages) * PAGE, size: pages * PAGE };
    }
    new Uint8Array(exports.memory.buffer).set(bytes, area.at);
    return bytes.length;
  }

  onmessage = ({ data }) => {
    if (data.module) {
      exports = new WebAssembly.Instance(data.module, { page: { take } }).exports;
      return;
    }
    id = data.id;
    try {
      const length = put(data.text);
      exports[data.call](area.at, length, data.number);
      postMessage({ id });
    } catch (why) {
      postMessage({ id, fault: String(why) });
      close();
    }
  };
}

// The engine, as the page uses it. `ask` gives each piece to `take`, and calls `done` at the end, with the reason if the engine was stopped. A
// newer question of the same kind takes the place of one that has not been answered, which then gets no answer.
class Engine {
  constructor(module) {
    this.module = module;
    this.source = URL.createObjectURL(new Blob([`(${engineMain})()`], { type: "text/javascript" }));
    this.seconds = MOST_SECONDS;
    this.waiting = new Map();
    this.asked = null;
    this.count = 0;
    this.begin();
  }

  begin() {
    this.worker = new Worker(this.source);
    this.worker.onmessage = ({ data }) => this.answered(data);
    this.worker.onerror = () => this.asked !== null && this.stop("the engine failed");
    this.worker.postMessage({ module: this.module });
  }

  ask(kind, question, take, done) {
    this.waiting.delete(kind);
    this.waiting.set(kind, { question, take, done });
    if (this.asked !== null && this.asked.kind === kind) {
      // The answer that nobody waits for any more has a moment.
      this.limit(0.3, null);
    }
    this.next();
  }

  // Stops the computation if it gives nothing more for so many seconds.
  limit(seconds, why) {
    clearTimeout(this.asked.timer);
    this.asked.timer = setTimeout(() => this.stop(why), 1000 * seconds);
  }

  next() {
    const [entry] = this.waiting;
    if (this.asked !== null || entry === undefined) {
      return;
    }
    const [kind, { question, take, done }] = entry;
    this.waiting.delete(kind);
    this.count += 1;
    this.asked = { id: this.count, kind, take, done };
    this.await();
    this.worker.postMessage({ id: this.count, ...question });
  }

  await() {
    this.limit(this.seconds, `this took longer than ${this.seconds} seconds`);
  }

  answered({ id, piece, fault }) {
    const asked = this.asked;
    if (asked?.id !== id) {
      return;
    }
    if (fault !== undefined) {
      this.stop("the memory did not suffice");
    } else if (piece === undefined) {
      this.end(null);
    } else if (!this.waiting.has(asked.kind)) {
      this.await();
      asked.take(piece);
    }
  }

  // Ends the computation, and begins with the next one.
  end(why) {
    const { kind, timer, done } = this.asked;
    clearTimeout(timer);
    this.asked = null;
    if (!this.waiting.has(kind)) {
      done(why);
    }
    this.next();
  }

  stop(why) {
    this.worker.terminate();
    this.begin();
    this.end(why);
  }
}

async function loadedEngine() {
  return new Engine(await compiled(await moduleBytes(MODULE), MODULE));
}
