// The card as a library: a module of WebAssembly with 64-bit addresses, whose exports are the calls of include/huwapire.h.
'use strict';

const STATUS = {
  DONE: 0, WRONG_HANDLE: 1, TOO_SHORT: 2, NO_MEMORY: 3, NOT_A_CARD: 4, WRONG_CELLS: 5, MUTE: 6, NO_WRITE: 7, NO_TERMINAL: 8,
};
const LONGEST_REPLY = 258;
// How many octets of a line's text a terminal has room for at first.
const ROOM_FOR_TEXT = 1024n;

// The two functions that the module asks of its page. They owe what page_heap says of them: a block that nobody else has, of at least so many octets,
// aligned to 16, until it is given back; or none.
class PageMemory {
  // Blocks stand behind what the module has for itself, each of a power of two of octets.
  constructor(memory) {
    this.memory = memory;
    this.end = memory.buffer.byteLength;
    this.sizes = new Map();
    this.free = new Map();
  }

  take(octets) {
    if (octets > 2 ** 28) return null;
    let size = 16;
    while (size < octets) size *= 2;
    const block = this.free.get(size)?.pop() ?? this.fresh(size);
    if (block !== null) this.sizes.set(block, size);
    return block;
  }

  fresh(size) {
    const missing = this.end + size - this.memory.buffer.byteLength;
    if (missing > 0) {
      try {
        this.memory.grow(BigInt(Math.ceil(missing / 65536)));
      } catch {
        return null;
      }
    }
    const block = this.end;
    this.end += size;
    return block;
  }

  give(block) {
    const size = this.sizes.get(block);
    this.sizes.delete(block);
    if (!this.free.has(size)) this.free.set(size, []);
    this.free.get(size).push(block);
  }

  // How many blocks are lent.
  get lent() {
    return this.sizes.size;
  }
}

class Library {
  constructor(octets) {
    let heap = null;
    const env = {
      // The place of the answer comes first: an octet that says whether there is a block, and at 8 its address, which isn't 0 in any case.
      page_alloc: (answer, size, alignment) => {
        const block = size < 2n ** 28n && alignment <= 16n ? heap.take(Number(size)) : null;
        const view = new DataView(this.memory.buffer);
        view.setUint8(Number(answer), block === null ? 0 : 1);
        view.setBigUint64(Number(answer) + 8, block === null ? answer : BigInt(block), true);
      },
      page_dealloc: (block) => heap.give(Number(block)),
    };
    const instance = new WebAssembly.Instance(new WebAssembly.Module(octets), { env });
    this.calls = instance.exports;
    this.memory = instance.exports.memory;
    heap = new PageMemory(this.memory);
    this.heap = heap;
  }

  // Makes a call with the octets that it is lent, and what it is to fill.
  lend(sizes, call) {
    const places = sizes.map((size) => this.heap.take(Math.max(size, 1)));
    try {
      if (places.includes(null)) return STATUS.NO_MEMORY;
      places.forEach((place, number) => new Uint8Array(this.memory.buffer).fill(0, place, place + sizes[number]));
      return call(...places.map(BigInt)) >>> 0;
    } finally {
      for (const place of places) if (place !== null) this.heap.give(place);
    }
  }

  put(place, octets) {
    new Uint8Array(this.memory.buffer).set(octets, Number(place));
  }

  get(place, count) {
    return new Uint8Array(this.memory.buffer).slice(Number(place), Number(place) + count);
  }

  number(place) {
    return Number(new DataView(this.memory.buffer).getBigUint64(Number(place), true));
  }

  // A handle that holds nothing: an address and a flag, all 00.
  handle() {
    const place = this.heap.take(16);
    this.put(place, new Uint8Array(16));
    return place;
  }

  // The image of a new card, or null.
  fresh(cells) {
    const handle = this.handle();
    const status = this.calls.huwapire_new(BigInt(handle), cells) >>> 0;
    const image = status === STATUS.DONE ? new Card(this, handle).image() : null;
    this.calls.huwapire_close(BigInt(handle));
    this.heap.give(handle);
    return image;
  }

  // The card of an image, with a terminal, and the writes that opening it made; or the status that says why there is none.
  open(image) {
    const handle = this.handle();
    const status = this.lend([image.length], (place) => {
      this.put(place, image);
      return this.calls.huwapire_open(BigInt(handle), place, BigInt(image.length));
    });
    if (status !== STATUS.DONE) {
      this.heap.give(handle);
      return { status, card: null, writes: [] };
    }
    const card = new Card(this, handle);
    // A terminal begins the log anew, so what the opening wrote is taken before.
    const writes = card.writes();
    const seated = this.calls.huwapire_terminal(BigInt(handle), ROOM_FOR_TEXT) >>> 0;
    if (seated === STATUS.DONE) return { status, card, writes };
    card.close();
    return { status: seated, card: null, writes: [] };
  }
}

class Card {
  constructor(library, handle) {
    this.library = library;
    this.handle = handle;
  }

  // What the card replies to a command, or null where it is mute.
  answer(command) {
    const { library } = this;
    let reply = null;
    library.lend([command.length, LONGEST_REPLY, 8], (asked, said, count) => {
      library.put(asked, command);
      const status = library.calls.huwapire_answer(
        BigInt(this.handle), asked, BigInt(command.length), said, BigInt(LONGEST_REPLY), count);
      if (status >>> 0 === STATUS.DONE) reply = library.get(said, library.number(count));
      return status;
    });
    return reply;
  }

  // The text that a terminal prints for a line, or null where memory was wanting; what the line committed is in the log then too.
  line(text) {
    const { library } = this;
    const octets = new TextEncoder().encode(text);
    const status = library.lend([octets.length], (line) => {
      library.put(line, octets);
      return library.calls.huwapire_line(BigInt(this.handle), line, BigInt(octets.length));
    });
    return status === STATUS.DONE ? new TextDecoder().decode(this.text()) : null;
  }

  // The text of the last line.
  text() {
    const { library } = this;
    const size = this.numberBy('huwapire_text_size');
    let text = new Uint8Array();
    library.lend([size, 8], (place, count) => {
      const status = library.calls.huwapire_text(BigInt(this.handle), place, BigInt(size), count);
      text = library.get(place, library.number(count));
      return status;
    });
    return text;
  }

  // The number that a call gives.
  numberBy(call) {
    let number = 0;
    this.library.lend([8], (place) => {
      const status = this.library.calls[call](BigInt(this.handle), place);
      number = this.library.number(place);
      return status;
    });
    return number;
  }

  reset() {
    return this.library.calls.huwapire_reset(BigInt(this.handle)) >>> 0;
  }

  // The writes that the last call made, in their order.
  writes() {
    const room = this.numberBy('huwapire_size');
    return Array.from({ length: this.numberBy('huwapire_writes') }, (_, number) => this.write(number, room));
  }

  write(number, room) {
    const { library } = this;
    let write = null;
    library.lend([8, room, 8], (at, octets, count) => {
      const status = library.calls.huwapire_write(BigInt(this.handle), BigInt(number), at, octets, BigInt(room), count);
      write = { at: library.number(at), octets: library.get(octets, library.number(count)) };
      return status;
    });
    return write;
  }

  image() {
    const size = this.numberBy('huwapire_size');
    let image = null;
    this.library.lend([size], (place) => {
      const status = this.library.calls.huwapire_image(BigInt(this.handle), place, BigInt(size));
      image = this.library.get(place, size);
      return status;
    });
    return image;
  }

  close() {
    this.library.calls.huwapire_close(BigInt(this.handle));
    this.library.heap.give(this.handle);
  }
}
