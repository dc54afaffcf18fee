// The library, compiled to WebAssembly, and its calls (bindings/c/ospf.h).

/** Whether the browser has memory with 64-bit addresses. */
function hasMemory64() {
  return WebAssembly.validate(new Uint8Array([0, 97, 115, 109, 1, 0, 0, 0, 5, 3, 1, 4, 1]));
}

/** A Router ID or an address as its number. */
function numberOf(address) {
  return address.split(".").reduce((sum, part) => sum * 256 + Number(part), 0) >>> 0;
}

const ANSWER_ROOM = 1 << 16, ANSWER = 24;

class Library {
  static async open(bytes) { return Library.of(await WebAssembly.compile(bytes)); }

  /** A library of a module: several workers share one module, each with a memory of its own. */
  static async of(module) {
    const library = new Library((await WebAssembly.instantiate(module, {})).exports);
    return Object.assign(library, {module});
  }

  /** Whether this library has a call. */
  has(name) { return name in this.exports; }

  constructor(exports) {
    this.exports = exports;
    this.taken = [];
  }

  // The memory may grow in a call, and then an older view of it is void.
  view() { return new DataView(this.exports.memory.buffer); }

  reserve(size) {
    const place = this.exports.reserve(BigInt(Math.max(size, 1)));
    if (!place) throw new Error("out of memory");
    this.taken.push(place);
    return Number(place);
  }

  put(bytes) {
    const place = this.reserve(bytes.length);
    new Uint8Array(this.exports.memory.buffer).set(bytes, place);
    return [BigInt(place), BigInt(bytes.length)];
  }

  /** A word as the call takes it: a number, or where bytes or a list are and how many. */
  given(word) {
    if (typeof word === "boolean") return [Number(word)];
    if (typeof word === "number") return [word | 0];
    if (typeof word === "string") return this.put(new TextEncoder().encode(word));
    if ("form" in word) return this.how(word);
    if (word.length && typeof word[0] === "object") return this.files(word);
    const [place, size] = this.put(new Uint8Array(new Uint32Array(word).buffer));
    return [place, size / 4n];
  }

  /** How failures are printed: its form and its carrier as numbers, and two flags. */
  how({form, carrier, each, strict}) {
    return [this.put(Uint8Array.from([form, carrier, each, strict], Number))[0]];
  }

  files(files) {
    const place = this.reserve(32 * files.length);
    files.forEach(({name, text}, at) => [...this.given(name), ...this.given(text)].forEach(
      (it, part) => this.view().setBigUint64(place + 32 * at + 8 * part, it, true)));
    return [BigInt(place), BigInt(files.length)];
  }

  /** Makes a call: the text, the warnings and the status of its answer. */
  call(name, ...words) {
    try {
      const given = words.flatMap(it => this.given(it)), answer = this.reserve(ANSWER);
      for (let size = ANSWER_ROOM; ;) {
        const room = this.reserve(size);
        this.exports[name](...given, BigInt(room), BigInt(size), BigInt(answer));
        const view = this.view(), number = at => Number(view.getBigUint64(answer + at, true));
        const text = number(0), all = text + number(8);
        if (all <= size) {
          const part = (from, to) => new TextDecoder().decode(
            new Uint8Array(view.buffer, room + from, to - from));
          return {text: part(0, text), warnings: part(text, all),
            status: view.getUint8(answer + 16)};
        }
        size = all;
      }
    } finally {
      for (const place of this.taken.splice(0)) this.exports.release(place);
    }
  }
}
