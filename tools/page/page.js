// The page: a session with a card, its image, and the power that is pulled.
'use strict';

const byId = (id) => document.getElementById(id);

const WORDS = {
  9000: 'done',
  6282: 'at the end: no such row',
  6581: 'the EEPROM failed; the card answers nothing more',
  6700: 'wrong length',
  6881: 'the channel isn’t open',
  6882: 'secure messaging isn’t supported',
  6884: 'this command doesn’t come in parts',
  6982: 'not allowed: the right is missing, or nobody is proved here',
  6983: 'blocked: no try is left',
  6985: 'not now, or not of this object',
  '6A80': 'values or columns don’t fit, or the data field is malformed',
  '6A81': 'channels 1 to 3 are open',
  '6A83': 'the row at the cursor is gone',
  '6A84': 'no room: the card is full',
  '6A86': 'P1 and P2 name no operation',
  '6A88': 'no user, object or column of that name appears',
  '6A89': 'the name is taken',
  '6D00': 'INS is none of the card’s',
  '6E00': 'CLA is none of the card’s',
};

const OPERATIONS = {
  100080: 'CREATE TABLE', 100081: 'CREATE VIEW', 100082: 'CREATE DICTIONARY', 100083: 'DROP TABLE', 100084: 'DROP VIEW', 100085: 'GRANT',
  100086: 'REVOKE', 100087: 'DECLARE CURSOR', 100088: 'OPEN', 100089: 'NEXT', '10008A': 'FETCH', '10008B': 'FETCH NEXT', '10008C': 'INSERT',
  '10008D': 'UPDATE', '10008E': 'DELETE', 120080: 'BEGIN', 120081: 'COMMIT', 120082: 'ROLLBACK', 140080: 'PRESENT USER', 140081: 'CREATE USER',
  140082: 'DELETE USER', 200000: 'VERIFY',
};

// A parameter of a data field: a text, or octets.
function parameter(value) {
  const octets = typeof value === 'string' ? new TextEncoder().encode(value) : Uint8Array.from(value);
  return [octets.length, ...octets];
}

// A command in hexadecimal.
function command(header, ...parameters) {
  const data = parameters.flatMap(parameter);
  return `00${header}${data.length === 0 ? '' : hexOf([data.length, ...data])}`;
}

const READY_COMMANDS = [
  ['present OWNER, who has no secret', command('140080', 'OWNER')],
  ['make the table NOTES', command('100080', 'NOTES', 'TEXT')],
  ['write the note ‘buy milk’', command('10008C', 'NOTES', 'buy milk')],
  ['write the note ‘feed cat’', command('10008C', 'NOTES', 'feed cat')],
  ['declare a cursor on NOTES', command('100087', 'NOTES', [0])],
  ['open the cursor', command('100088')],
  ['fetch the row at the cursor', `${command('10008A')}00`],
  ['fetch the next row', `${command('10008B')}00`],
  ['change the row at the cursor', command('10008D', 'TEXT', 'buy bread')],
  ['delete the row at the cursor', command('10008E')],
  ['make the user ANN', command('140081', 'ANN', [3], '')],
  ['let ANN read NOTES', command('100085', [1], 'NOTES', 'ANN')],
  ['make the user BOB with a secret', command('140081', 'BOB', [3], '1234')],
  ['present BOB', command('140080', 'BOB')],
  ['show a wrong secret', `0020000004${hexOf(new TextEncoder().encode('0000'))}`],
  ['show the right secret', `0020000004${hexOf(new TextEncoder().encode('1234'))}`],
  ['begin a transaction', command('120080')],
  ['commit it', command('120081')],
  ['roll it back', command('120082')],
  ['drop the table NOTES', command('100083', 'NOTES')],
];

// It begins with who acts, a table, a note, and another one.
const READY_LINES = [
  'PRESENT OWNER',
  'CREATE TABLE NOTES (TEXT)',
  "INSERT INTO NOTES VALUES ('buy milk')",
  "INSERT INTO NOTES VALUES ('feed cat')",
  'SELECT * FROM NOTES',
  "UPDATE NOTES SET TEXT = 'buy bread' WHERE TEXT = 'buy milk'",
  "DELETE FROM NOTES WHERE TEXT = 'feed cat'",
  'CREATE USER ANN DBBU',
  'GRANT SELECT ON NOTES TO ANN',
  'BEGIN',
  'COMMIT',
  'ROLLBACK',
  'DROP TABLE NOTES',
];

// What the page has: the card while it has power, and what stands in its EEPROM. `last` is the last statement or command: the image before and behind it,
// its writes, and what was acknowledged before and behind it. `left` is what a cut left, while the power is off, and `made` the writes that were made
// to the image: those of the last one, or up to a cut and by the opening behind it. A cut is one until it is taken back, or something else is asked.
const page = {
  library: null, card: null, image: null, acknowledged: [], last: null, made: [], moment: 0, isShown: false, left: null, isCut: false, selected: 0,
  history: [], place: 0,
};

const hasPower = () => page.card !== null;

// ---- the session

function explainWord(word) {
  if (word.startsWith('63C')) return `wrong secret, ${parseInt(word[3], 16)} tries are left`;
  if (word.startsWith('61')) return `done, and ${parseInt(word.slice(2), 16) || 'more than 255'} octets are left (GET RESPONSE)`;
  if (word.startsWith('6C')) return `the row has ${parseInt(word.slice(2), 16) || '256 or more'} octets; ask for as many`;
  return WORDS[word] ?? 'see docs/PROFILE.md';
}

// What a command is, in words.
function explainCommand(octets) {
  const name = OPERATIONS[hexOf(octets.subarray(1, 4))];
  if (name === undefined) return 'a command';
  const found = [];
  if (name !== 'VERIFY') {
    for (let at = 5; at < octets.length; at += 1 + octets[at]) found.push(octets.subarray(at + 1, at + 1 + octets[at]));
  }
  return [name, ...found.map((value) => (isName(value) ? nameText(value) : valueText(value)))].join(' ');
}

const isName = (octets) => /^[A-Z][A-Z0-9_]{0,7}$/.test(nameText(octets));

// The values of a row that was answered, where they are some.
function rowText(data) {
  const values = [];
  for (let at = 0; at < data.length; at += 1 + data[at]) {
    if (at + 1 + data[at] > data.length) return '';
    values.push(valueText(data.subarray(at + 1, at + 1 + data[at])));
  }
  return values.length === 0 ? '' : `: ${values.join(', ')}`;
}

function tell(asked, said, note) {
  const entry = document.createElement('li');
  const add = (tag, text, className) => {
    if (text === '') return;
    const part = document.createElement(tag);
    part.textContent = text;
    part.className = className;
    entry.append(part);
  };
  add('code', asked, 'asked');
  add('code', said, 'said');
  add('span', note, 'note');
  const log = byId('log');
  log.append(entry);
  while (log.children.length > 200) log.firstChild.remove();
  log.scrollTop = log.scrollHeight;
  return entry;
}

// Lets the card do some work, makes its writes to the EEPROM, and keeps what is told of it. The work gives whether it is acknowledged, and what tells
// it, with what was written.
function carryOut(what, name, work) {
  const before = page.image;
  const { isAcknowledged, show } = work(page.card);
  const writes = page.card.writes();
  page.image = applied(before, writes);
  // What is written in a transaction changes nothing before its COMMIT, and isn't acknowledged to stay.
  const isChanged = storeText(before) !== storeText(page.image);
  const { acknowledged } = page;
  if (isChanged && isAcknowledged) page.acknowledged = [...acknowledged, name];
  page.last = { what, name, before, after: page.image, writes, acknowledged, acknowledgedAfter: page.acknowledged };
  page.made = writes;
  page.moment = total();
  page.isShown = false;
  page.left = null;
  page.isCut = false;
  page.last.entry = show(`${writtenText(writes.length)}${writes.length > 0 && !isChanged ? ', and the database is as before' : ''}`);
  byId('verdict').textContent = '';
  byId('held').hidden = true;
  draw();
  // Behind want of memory a card says nothing any more, until it is opened again.
  if (!isAcknowledged && open(page.image) !== null) tell('', '', `the browser had no memory for the ${what}: the card was opened again, and its sessions are gone`);
}

const countText = (count) => (count === 1 ? '1 octet' : `${count} octets`);

const writtenText = (count) => (count === 0 ? 'nothing written' : count === 1 ? '1 write' : `${count} writes`);

function sendCommand(octets) {
  const name = explainCommand(octets);
  let word = '';
  carryOut('command', name, (card) => {
    const reply = card.answer(octets);
    word = reply === null ? '' : hexOf(reply.subarray(reply.length - 2));
    const data = reply === null ? [] : reply.subarray(0, reply.length - 2);
    return {
      isAcknowledged: reply !== null,
      show: (written) => tell(hexOf(octets), reply === null ? 'mute' : [hexOf(data), word].join(' ').trim(),
        `${name} → ${reply === null ? 'no answer' : explainWord(word) + rowText(data)}; ${written}`),
    };
  });
  return word;
}

function sendLine(text) {
  carryOut('statement', text.trim(), (card) => {
    const said = card.line(text);
    return {
      isAcknowledged: said !== null,
      show: (written) => tell(text, said === null ? 'no text' : said.replace(/\n$/, ''), `${said === null ? '' : lineNote(text, said)}${written}`),
    };
  });
}

const LINE_FAULTS = {
  '': 'a note asks for nothing',
  'error too large': 'the statement needs more than its commands have room for',
  'error line too long': 'a line has at most 1,000 octets',
};

// What the closing line means, where it isn't one of a statement that is done.
function lineNote(text, said) {
  const last = said.trimEnd().split('\n').at(-1);
  const word = /^refused ([0-9A-F]{4})$/.exec(last)?.[1];
  const place = /^error at (\d+)$/.exec(last)?.[1];
  const why = word !== undefined ? explainWord(word) : place !== undefined ? faultText(text, Number(place)) : LINE_FAULTS[last];
  return why === undefined ? '' : `${why}; `;
}

// Why a line is no statement, by how many of its octets stand before the fault.
function faultText(text, place) {
  const rest = Array.from(new TextDecoder().decode(new TextEncoder().encode(text).subarray(place)).trim()).slice(0, 60).join('');
  if (rest === '') return 'the statement ends too early';
  return `something else has to stand in place of “${rest}”${/^[a-z]/.test(rest) ? ', and all words in capital letters' : ''}`;
}

// Sends what is typed: hexadecimal digits as a command, and anything else as a statement.
function send(text) {
  const typed = text.trim();
  if (typed === '') return;
  if (!hasPower()) {
    tell(typed, '', 'the card has no power: put it back first');
    return;
  }
  const octets = octetsOf(typed);
  if (octets !== null && octets.length > 4096) tell(`${typed.slice(0, 32)}…`, '', `no command has ${octets.length} octets; nothing was sent`);
  else if (octets !== null) sendCommand(octets);
  else sendLine(text);
}

// A new card of so many cells.
function begin(cells) {
  const image = page.library.fresh(cells);
  const card = image === null ? null : page.library.open(image).card;
  if (card === null) {
    tell(`a card of ${cells} cells`, '', 'the browser has no memory for it');
    return;
  }
  page.card?.close();
  page.image = image;
  page.acknowledged = [];
  page.last = null;
  page.made = [];
  page.left = null;
  page.isCut = false;
  page.moment = 0;
  page.isShown = false;
  page.selected = 0;
  page.card = card;
  byId('log').replaceChildren();
  byId('verdict').textContent = '';
  byId('held').hidden = true;
  tell(`a new card of ${cells} cells`, '', `${image.length} octets; its one user is OWNER, whom anybody may present`);
  build();
  draw();
}

// ---- the power

// A moment counts what can be told apart: it is between two writes, or within one, behind so many of its octets, of none at least. So each write has
// one moment more than octets.
const momentsOf = (writes) => writes.reduce((sum, { octets }) => sum + octets.length + 1, 0);

const total = () => (page.last === null ? 0 : momentsOf(page.last.writes));

// The moment in the middle of a write.
const middleOf = (number) => momentsOf(page.last.writes.slice(0, number)) + 1 + Math.floor(page.last.writes[number].octets.length / 2);

// How many writes are made at a moment, and of the one under way how many octets, or null where none is.
function writeAt(moment) {
  let past = 0;
  for (const [number, { octets }] of page.last.writes.entries()) {
    if (moment <= past + octets.length) return { number, count: moment === past ? null : moment - past - 1 };
    past += octets.length + 1;
  }
  return { number: page.last.writes.length, count: null };
}

// The octets that a torn write leaves in its range.
function tornOctets(write, count, old) {
  const fill = byId('fill').value;
  if (fill === 'own') {
    const own = octetsOf(byId('own').value) ?? Uint8Array.of(0);
    return write.octets.map((_, place) => own[place % own.length]);
  }
  return write.octets.map((octet, place) => (place < count ? octet : fill === 'kept' ? old[place] : parseInt(fill, 16)));
}

// What is in the EEPROM where power goes at a moment.
function leftAt(moment) {
  const { number, count } = writeAt(moment);
  const left = applied(page.last.before, page.last.writes.slice(0, number));
  if (count !== null) {
    const write = page.last.writes[number];
    left.set(tornOctets(write, count, left.slice(write.at, write.at + write.octets.length)), write.at);
  }
  return left;
}

const canPull = () => page.last !== null && page.last.writes.length > 0;

function pull() {
  if (!canPull()) return;
  page.card?.close();
  page.card = null;
  page.left = leftAt(page.moment);
  page.image = page.left;
  page.acknowledged = page.last.acknowledged;
  page.last.entry.classList.add('unsaid');
  page.isShown = true;
  page.isCut = true;
  const torn = marks().find(({ mark }) => mark === 'torn');
  if (torn !== undefined) page.selected = squaresOf(page.image).findIndex(({ end }) => torn.from < end);
  tell('', '', `the power is pulled: ${momentText()}. No answer to ${page.last.name} goes out`);
  byId('verdict').textContent = 'No power. What the EEPROM has is above.';
  byId('held').hidden = true;
  draw();
}

// Opens the card of an image and makes the writes of the opening, which it gives; null where it doesn't open.
function open(image) {
  const { status, card, writes } = page.library.open(image);
  if (status !== STATUS.DONE) return null;
  page.card?.close();
  page.card = card;
  page.image = applied(image, writes);
  return writes;
}

// The databases to which the last statement or command leads on its way, as texts: those of the images before it and behind each of its writes.
function storesOnTheWay() {
  page.last.stores ??= [[], ...page.last.writes].map((_, number) => storeText(applied(page.last.before, page.last.writes.slice(0, number))));
  return page.last.stores;
}

// Which database an image holds: that of before the last statement or command, that of behind it, one that it commits between, or another one.
function whichStore(image) {
  const now = storeText(image);
  const stores = storesOnTheWay();
  if (now === stores[0]) return 'before';
  if (now === stores.at(-1)) return 'after';
  return stores.includes(now) ? 'between' : 'another';
}

const storeWords = (what) => ({
  before: `all that was acknowledged, and nothing of the ${what} under way`,
  after: `all that was acknowledged, and the whole of the ${what} under way, which was committed though its answer never went out`,
  between: `all that was acknowledged, and what the ${what} under way had committed by then`,
  another: 'something else, which must not be: please tell us',
});

function putBack() {
  if (page.left === null) return;
  const writes = open(page.left);
  if (writes === null) {
    byId('verdict').textContent = 'The card doesn’t open, which must not be: please tell us.';
    return;
  }
  page.isShown = false;
  page.made = [...page.last.writes.slice(0, writeAt(page.moment).number), ...writes];
  const holds = storeWords(page.last.what)[whichStore(page.image)];
  page.left = null;
  byId('verdict').textContent = `The card opened${writes.length > 0 ? ` and finished its commit with ${writtenText(writes.length)}` : ''}. It holds ${holds}.`;
  tell('', '', `the power is back: the card holds ${holds}. Its sessions are gone: present a user again`);
  drawHeld();
  draw();
}

// Takes the cut back: the last writes are all made.
function undoCut() {
  if (page.last === null || open(page.last.after) === null) return;
  const { last } = page;
  page.acknowledged = last.acknowledgedAfter;
  last.entry.classList.remove('unsaid');
  page.made = last.writes;
  page.left = null;
  page.isCut = false;
  page.moment = total();
  page.isShown = false;
  byId('verdict').textContent = 'As if nothing had happened: all writes are made. The sessions are gone: present a user again.';
  byId('held').hidden = true;
  draw();
}

// Cuts the last statement or command between all writes and behind each octet of each write, with the rest of the write as it was, 00, and FF, and opens what is left.
function tryAll() {
  const found = { before: 0, after: 0, between: 0, another: 0, refused: 0, moments: 0 };
  if (!canPull()) return found;
  const { value } = byId('fill');
  for (const fill of ['kept', '00', 'FF']) {
    byId('fill').value = fill;
    for (let moment = 0; moment <= total(); moment++) {
      found.moments++;
      const left = leftAt(moment);
      const { status, card, writes } = page.library.open(left);
      if (status !== STATUS.DONE) {
        found.refused++;
        continue;
      }
      found[whichStore(applied(left, writes))]++;
      card.close();
    }
  }
  byId('fill').value = value;
  const some = (count, text) => (count === 0 ? '' : `, ${count} ${text}`);
  byId('verdict').textContent = `${found.moments} cuts of ${page.last.name}, each opened again: ${found.before} hold what was there before it, ${found.after} the whole of it`
    + `${some(found.between, 'what it had committed on the way')}${some(found.another, 'something else')}${some(found.refused, 'didn’t open')}. `
    + (found.another + found.refused === 0 ? 'None lost what was acknowledged.' : 'This must not be: please tell us.');
  return found;
}

// ---- drawing

// The squares of the image, made anew where the card has another size.
function build() {
  const squares = squaresOf(page.image);
  byId('image').className = squares.length > 200 ? 'many' : 'few';
  byId('image').replaceChildren(...squares.map((square, number) => {
    const box = document.createElement('span');
    box.id = `square-${number}`;
    box.setAttribute('role', 'option');
    box.addEventListener('click', () => select(number));
    return box;
  }));
}

const LETTERS = { header: 'H', directory: 'D', journal: 'J', counter: '#', user: 'U', table: 'T', view: 'V', dictionary: 'Y', grant: 'G', row: 'R', free: '·' };

// The image that is shown: what a cut at the slider's moment would leave, while the slider is moved.
const shownImage = () => (page.left ?? (page.isShown && canPull() ? leftAt(page.moment) : page.image));

// What became of one of the last writes by the moment of the slider.
function markOf(number) {
  const now = writeAt(page.moment);
  if (number < now.number) return 'made';
  return number === now.number && now.count !== null ? 'torn' : 'later';
}

// What became of the writes by the moment that is shown, as ranges of octets.
function marks() {
  const isAtSlider = page.last !== null && (page.isShown || page.left !== null);
  const writes = isAtSlider ? page.last.writes : page.made;
  return writes.map(({ at, octets }, number) => ({ from: at, to: at + octets.length, mark: isAtSlider ? markOf(number) : 'made' }));
}

function drawImage() {
  const image = shownImage();
  const squares = squaresOf(image);
  if (squares.length !== byId('image').children.length) build();
  const found = marks();
  for (const [number, square] of squares.entries()) {
    const box = byId('image').children[number];
    const mark = ['torn', 'made', 'later'].find((each) => found.some(({ from, to, mark }) => mark === each && from < square.end && square.at < to)) ?? '';
    const className = `${square.kind} ${mark}`.trim();
    if (box.className !== className) box.className = className;
    if (box.textContent !== LETTERS[square.kind]) box.textContent = LETTERS[square.kind];
    const label = `${square.what}${mark === '' ? '' : `, ${{ made: 'written', torn: 'torn', later: 'not yet written' }[mark]}`}`;
    if (box.title !== label) {
      box.title = label;
      box.setAttribute('aria-label', label);
    }
    box.setAttribute('aria-selected', String(number === page.selected));
  }
  byId('image-when').textContent = page.left !== null ? 'As the cut left it.' : page.isShown && canPull() ? 'As it would be left if the power went at the slider’s moment.' : 'As it is.';
  drawSquare(image, squares);
}

// The octets of the square that is selected.
function drawSquare(image, squares) {
  const square = squares[Math.min(page.selected, squares.length - 1)];
  byId('image').setAttribute('aria-activedescendant', `square-${page.selected}`);
  const octets = image.subarray(square.at, square.end);
  byId('square-what').textContent = `Octets ${square.at} to ${square.end - 1}, ${square.what}`;
  byId('square-octets').textContent = hexOf(octets).replace(/(.{8})(?!$)/g, '$1 ');
  byId('square-text').textContent = Array.from(octets, (octet) => (octet >= 0x20 && octet < 0x7F ? String.fromCharCode(octet) : '·')).join('');
}

function select(number) {
  page.selected = number;
  drawImage();
  byId('image').children[number].scrollIntoView({ block: 'nearest' });
}

// What a write is, by its place.
function writeText({ at, octets }) {
  const layout = layoutOf(page.last.after);
  if (at === 8) return octets[0] % 2 === 1 ? 'the gate opens: from here on the journal counts' : 'the gate closes: done';
  if (at < layout.directory) return 'header';
  if (at < layout.journal) return 'directory: where records begin';
  if (at < layout.first) return 'journal: which records are changed';
  const kind = squaresOf(page.last.after).find((square) => square.at === at)?.kind ?? 'free';
  return kind === 'free' ? 'a free cell' : `a new ${kind}, in cells that were free`;
}

const octetsIn = (writes) => writes.reduce((sum, { octets }) => sum + octets.length, 0);

function drawWrites() {
  const { last } = page;
  const rows = last === null ? [] : last.writes.map((write, number) => {
    const row = document.createElement('li');
    const jump = document.createElement('button');
    jump.type = 'button';
    jump.textContent = `${number + 1}. ${countText(write.octets.length)} at ${write.at}: ${writeText(write)}`;
    jump.addEventListener('click', () => move(middleOf(number)));
    const octets = document.createElement('code');
    octets.textContent = hexOf(write.octets);
    row.append(jump, octets);
    return row;
  });
  byId('writes').replaceChildren(...rows);
  byId('writes-of').textContent = last === null ? 'Nothing was asked yet.' : `${last.name}: ${writtenText(last.writes.length)}${last.writes.length === 0 ? '' : `, ${countText(octetsIn(last.writes))}`}.`;
}

function momentText() {
  const { number, count } = writeAt(page.moment);
  const { length } = page.last.writes;
  if (number === length) return 'all writes are made';
  if (count === null) return number === 0 ? 'before the first write' : `between write ${number} and write ${number + 1}`;
  return `within write ${number + 1} of ${length}, behind ${count} of its ${countText(page.last.writes[number].octets.length)}`;
}

function drawPower() {
  const slider = byId('moment');
  slider.max = total();
  slider.value = page.moment;
  for (const id of ['moment', 'earlier', 'later', 'pull', 'try-all', 'fill', 'own']) byId(id).disabled = !canPull();
  byId('pull').disabled = !canPull() || page.left !== null;
  byId('put-back').disabled = page.left === null;
  byId('undo').disabled = !page.isCut;
  Array.from(byId('writes').children).forEach((row, number) => {
    row.className = markOf(number);
  });
  byId('own-part').hidden = byId('fill').value !== 'own';
  byId('own').ariaInvalid = String(octetsOf(byId('own').value) === null);
  const text = canPull() ? momentText() : 'nothing was written last';
  byId('moment-text').textContent = text;
  slider.setAttribute('aria-valuetext', text);
}

// What was acknowledged, and beside it what the card holds.
function drawHeld() {
  const fill = (id, texts) => byId(id).replaceChildren(...texts.map((text) => {
    const item = document.createElement('li');
    item.textContent = text;
    return item;
  }));
  fill('acknowledged', page.last.acknowledged);
  byId('under-way').textContent = page.last.name;
  fill('records', recordTexts(page.image).map((record) => record.text));
  byId('held').hidden = false;
}

function drawState() {
  document.body.dataset.power = hasPower() ? 'on' : 'off';
  byId('power').textContent = hasPower() ? 'The card has power.' : 'The card has no power.';
  const records = recordsOf(page.image);
  const layout = layoutOf(page.image);
  const used = records.reduce((sum, record) => sum + record.cells.length, 0);
  byId('room').textContent = layout === null ? '' : `${records.length} records take ${used} of ${layout.cells} cells.`;
}

function draw() {
  drawImage();
  drawWrites();
  drawPower();
  drawState();
}

// Moves the slider. With the power off it stays where power went.
function move(moment) {
  if (!canPull()) return;
  page.moment = Math.max(0, Math.min(total(), moment));
  page.isShown = true;
  if (page.left !== null) page.left = leftAt(page.moment);
  if (page.left !== null) page.image = page.left;
  drawImage();
  drawPower();
  drawState();
}

// To the beginning of the write before, or of the next one.
function step(forwards) {
  const bounds = [0, ...page.last.writes.map((_, number) => momentsOf(page.last.writes.slice(0, number + 1)))];
  const next = forwards ? bounds.find((bound) => bound > page.moment) : bounds.findLast((bound) => bound < page.moment);
  if (next !== undefined) move(next);
}

// ---- the tour

const TOUR = [
  {
    text: 'This is a smart card with a database in it. The squares show its whole memory, 32 octets in each. First a card has to be made, with a list of notes, and one note in it.',
    button: 'Make it',
    act() {
      begin(64);
      for (const each of READY_LINES.slice(0, 3)) send(each);
    },
  },
  {
    look: 'image',
    text: 'Each time the card answered that it is done, and what is done will stay. Now write a second note. Watch the squares: those that the card writes get a frame.',
    button: 'Write the note',
    act() {
      send(READY_LINES[3]);
      move(middleOf(0));
    },
  },
  {
    look: 'cutting',
    text: 'Below are the writes of that one note, in their order. The slider now stands in the middle of the first. Pull the power there, as if somebody tore the card out of the reader. The rest of that write may be anything: here it is FF.',
    button: 'Pull the power',
    act() {
      byId('fill').value = 'FF';
      pull();
    },
  },
  {
    look: 'image',
    text: 'The card is off, and one square is torn. No answer went out, so nobody was told that the second note is there. Put the card back.',
    button: 'Put it back',
    act: putBack,
  },
  {
    look: 'held',
    text: 'It opened. The first note, which was acknowledged, is there, and there is no half of a second one. That was one moment. Now each moment is tried: between the writes, and behind each octet of each of them, torn in three ways.',
    button: 'Try each moment',
    act() {
      undoCut();
      tryAll();
    },
  },
];

const TOUR_END = {
  look: 'verdict',
  text: 'That is what is proved of this card, for each statement, each command and each moment, and not only tried: what was acknowledged is there. Go on by yourself: move the slider, tear a write in another place, ask for other things.',
  button: 'Close',
};

let tourStep = null;

// Shows a step of the tour, and what it speaks of.
function drawTour() {
  byId('tour').hidden = tourStep === null;
  if (tourStep === null) return;
  const { look, text, button } = TOUR[tourStep] ?? TOUR_END;
  byId('tour-step').textContent = tourStep === TOUR.length ? 'The tour is over' : `Step ${tourStep + 1} of ${TOUR.length}`;
  byId('tour-text').textContent = text;
  byId('tour-go').textContent = button;
  if (look !== undefined) byId(look).scrollIntoView({ block: 'nearest' });
}

function beginTour() {
  tourStep = 0;
  drawTour();
  byId('tour-go').focus();
}

function endTour() {
  tourStep = null;
  drawTour();
  byId('tour-start').focus();
}

function goOn() {
  if (tourStep === TOUR.length) {
    endTour();
    return;
  }
  TOUR[tourStep].act();
  tourStep++;
  drawTour();
}

// ---- the beginning

function listen() {
  byId('session').addEventListener('submit', (event) => {
    event.preventDefault();
    const { value } = byId('typed');
    byId('typed').value = '';
    byId('ready').selectedIndex = 0;
    if (value.trim() !== '') page.history.push(value);
    page.place = page.history.length;
    send(value);
  });
  byId('typed').addEventListener('keydown', (event) => {
    const by = { ArrowUp: -1, ArrowDown: 1 }[event.key];
    if (by === undefined) return;
    event.preventDefault();
    page.place = Math.max(0, Math.min(page.history.length, page.place + by));
    byId('typed').value = page.history[page.place] ?? '';
  });
  byId('ready').addEventListener('change', (event) => {
    byId('typed').value = event.target.value;
  });
  byId('new').addEventListener('click', () => begin(Number(byId('cells').value)));
  byId('image').addEventListener('keydown', (event) => {
    const wide = Math.max(1, Math.round(byId('image').clientWidth / byId('image').firstChild.offsetWidth) || 16);
    const by = { ArrowLeft: -1, ArrowRight: 1, ArrowUp: -wide, ArrowDown: wide, Home: -page.selected, End: Infinity }[event.key];
    if (by === undefined) return;
    event.preventDefault();
    select(Math.max(0, Math.min(byId('image').children.length - 1, page.selected + by)));
  });
  byId('moment').addEventListener('input', (event) => move(Number(event.target.value)));
  byId('fill').addEventListener('change', () => move(page.moment));
  byId('own').addEventListener('input', () => move(page.moment));
  byId('earlier').addEventListener('click', () => step(false));
  byId('later').addEventListener('click', () => step(true));
  byId('pull').addEventListener('click', pull);
  byId('put-back').addEventListener('click', putBack);
  byId('undo').addEventListener('click', undoCut);
  byId('try-all').addEventListener('click', tryAll);
  byId('tour-start').addEventListener('click', beginTour);
  byId('tour-go').addEventListener('click', goOn);
  byId('tour-leave').addEventListener('click', endTour);
}

// What can be chosen in place of typing it.
function addReady(label, options) {
  const group = document.createElement('optgroup');
  group.label = label;
  group.append(...options.map(([name, text]) => new Option(name, text)));
  byId('ready').append(group);
}

function start() {
  try {
    page.library = new Library(Uint8Array.from(atob(byId('module').textContent.trim()), (each) => each.charCodeAt(0)));
  } catch (error) {
    byId('no-start').hidden = false;
    byId('no-start-why').textContent = String(error);
    return;
  }
  addReady('Statements', READY_LINES.map((line) => [line, line]));
  addReady('Commands', READY_COMMANDS);
  byId('main').hidden = false;
  listen();
  begin(64);
}

start();
