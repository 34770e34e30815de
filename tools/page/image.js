// What stands in an image, read as docs/IMAGE.md says. It is for showing alone: what the card holds, the card itself says.
'use strict';

const CELL = 32;
const NONE = 0xFFFF;
const KINDS = ['counter', 'user', 'table', 'view', 'dictionary', 'grant', 'row'];

const hexOf = (octets) => Array.from(octets, (octet) => octet.toString(16).padStart(2, '0').toUpperCase()).join('');

// The octets of hexadecimal digits, with spaces anywhere between, or null.
function octetsOf(text) {
  const digits = text.replace(/\s+/g, '');
  if (digits === '' || digits.length % 2 !== 0 || !/^[0-9A-Fa-f]*$/.test(digits)) return null;
  return Uint8Array.from(digits.match(/../g), (pair) => parseInt(pair, 16));
}

// A value as a statement has it.
function valueText(octets) {
  const isPlain = octets.every((octet) => octet >= 0x20 && octet < 0x7F);
  return isPlain ? `'${String.fromCharCode(...octets).replaceAll("'", "''")}'` : `X'${hexOf(octets)}'`;
}

const nameText = (octets) => String.fromCharCode(...octets);

// Where the parts of an image begin, or null where it isn't one of a card.
function layoutOf(image) {
  if (image.length < 34 || nameText(image.subarray(0, 4)) !== 'SCQL') return null;
  const cells = image[6] * 256 + image[7];
  if (cells < 16 || cells > 2048 || image.length < 70 * cells + 34) return null;
  return { cells, directory: 32, journal: 32 + 2 * cells, first: 34 + 6 * cells };
}

const numberAt = (image, at) => image[at] * 256 + image[at + 1];

// The first cell of each slot, with the journal's entries where the gate is open.
function directoryOf(image, layout) {
  const directory = [];
  for (let slot = 0; slot < layout.cells; slot++) directory.push(numberAt(image, layout.directory + 2 * slot));
  if (image[8] % 2 === 1) {
    const entries = Math.min(numberAt(image, layout.journal), layout.cells);
    for (let entry = 0; entry < entries; entry++) {
      const at = layout.journal + 2 + 4 * entry;
      if (numberAt(image, at) < layout.cells) directory[numberAt(image, at)] = numberAt(image, at + 2);
    }
  }
  return directory;
}

// The chain from a cell on, and the record in it, as far as they go.
function chainOf(image, layout, start) {
  const cells = [];
  for (let cell = start; cell < 2 * layout.cells && !cells.includes(cell) && cells.length < 40; ) {
    cells.push(cell);
    cell = numberAt(image, layout.first + CELL * cell);
  }
  const payload = cells.flatMap((cell) => Array.from(image.subarray(layout.first + CELL * cell + 2, layout.first + CELL * cell + CELL)));
  const length = payload[0] * 256 + payload[1];
  return { cells, octets: Uint8Array.from(payload.slice(2, 2 + length)) };
}

// The records of an image, by slot.
function recordsOf(image) {
  const layout = layoutOf(image);
  if (layout === null) return [];
  return directoryOf(image, layout)
    .map((start, slot) => ({ slot, start }))
    .filter(({ start }) => start < 2 * layout.cells)
    .map(({ slot, start }) => ({ slot, ...chainOf(image, layout, start) }))
    .map((record) => ({ ...record, kind: KINDS[record.octets[0]] ?? 'free' }));
}

// What two images hold is the same where this is: each slot's record.
const storeText = (image) => recordsOf(image).map((record) => `${record.slot}:${hexOf(record.octets)}`).join(' ');

// Reads the fields of a record one after another.
class Fields {
  constructor(octets) {
    this.octets = octets;
    this.at = 1;
  }

  number(count) {
    let value = 0;
    while (count-- > 0) value = value * 256 + (this.octets[this.at++] ?? 0);
    return value;
  }

  text() {
    const count = this.number(1);
    this.at += count;
    return this.octets.slice(this.at - count, this.at);
  }

  texts(count) {
    return Array.from({ length: count }, () => this.text());
  }

  rest() {
    const found = [];
    while (this.at < this.octets.length) found.push(this.text());
    return found;
  }
}

const PROFILES = { 1: 'owner of the database', 2: 'owner of objects', 3: 'basic user' };
const PRIVILEGES = ['SELECT', 'INSERT', 'UPDATE', 'DELETE'];

const privilegesText = (octet) => PRIVILEGES.filter((_, bit) => octet & (1 << bit)).join(', ');

// A record in words; `named` tells the name of a stamp.
function recordText(octets, named) {
  const fields = new Fields(octets);
  const stamp = fields.number(4);
  switch (KINDS[octets[0]]) {
    case 'counter':
      return `next stamp ${stamp}`;
    case 'user': {
      fields.number(4);
      const profile = PROFILES[fields.number(1)];
      const tries = fields.number(1);
      const name = nameText(fields.text());
      return `user ${name}, ${profile}, ${fields.text().length === 0 ? 'no secret' : `a secret, ${tries} tries`}`;
    }
    case 'table':
      fields.number(4);
      return `table ${nameText(fields.text())} (${fields.texts(fields.number(1)).map(nameText).join(', ')})`;
    case 'view':
      fields.number(8);
      return `view ${nameText(fields.text())}`;
    case 'dictionary':
      fields.number(4);
      return `dictionary ${nameText(fields.text())}`;
    case 'grant': {
      const object = fields.number(4);
      const grantee = fields.number(4);
      return `${grantee === 0 ? 'everybody' : named(grantee)} may ${privilegesText(fields.number(1))} on ${named(object)}`;
    }
    case 'row': {
      const table = fields.number(4);
      return `row of ${named(table)}: ${fields.rest().map(valueText).join(', ')}`;
    }
    default:
      return '';
  }
}

// The names of users and objects by their stamps.
function namesOf(records) {
  const names = new Map();
  for (const { kind, octets } of records) {
    const fields = new Fields(octets);
    const stamp = fields.number(4);
    if (kind === 'user') fields.number(6);
    else if (kind === 'view') fields.number(8);
    else if (kind === 'table' || kind === 'dictionary') fields.number(4);
    else continue;
    names.set(stamp, nameText(fields.text()));
  }
  return names;
}

// The records in words, in the order of their slots.
function recordTexts(image) {
  const records = recordsOf(image);
  const names = namesOf(records);
  const named = (stamp) => names.get(stamp) ?? '?';
  return records.map((record) => ({ ...record, text: recordText(record.octets, named) }));
}

// The image in squares of at most 32 octets: header, directory, journal and cells.
function squaresOf(image) {
  const layout = layoutOf(image);
  if (layout === null) {
    return Array.from({ length: Math.ceil(image.length / CELL) }, (_, number) => ({
      at: number * CELL, end: Math.min(image.length, (number + 1) * CELL), kind: 'free', what: 'no card',
    }));
  }
  const squares = [];
  const strip = (from, to, kind, what) => {
    for (let at = from; at < to; at += CELL) squares.push({ at, end: Math.min(to, at + CELL), kind, what });
  };
  strip(0, layout.directory, 'header', 'header');
  strip(layout.directory, layout.journal, 'directory', 'directory');
  strip(layout.journal, layout.first, 'journal', 'journal');
  const owners = new Map();
  for (const record of recordTexts(image)) for (const cell of record.cells) owners.set(cell, record);
  for (let cell = 0; cell < 2 * layout.cells; cell++) {
    const at = layout.first + CELL * cell;
    const record = owners.get(cell);
    squares.push({
      at, end: at + CELL, kind: record?.kind ?? 'free',
      what: record ? `cell ${cell}, slot ${record.slot}: ${record.text}` : `cell ${cell}, free`,
    });
  }
  return squares;
}

// The image with these writes made in their order.
function applied(image, writes) {
  const made = image.slice();
  for (const { at, octets } of writes) made.set(octets, at);
  return made;
}
