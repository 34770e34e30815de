// What tests/page has a browser do in the page, by what a person would press and type. Each line that it says is compared there.
'use strict';

const said = [];
const say = (text) => said.push(text);
const textOf = (id) => byId(id).textContent.trim();
const textsIn = (id) => Array.from(byId(id).children, (item) => item.textContent).join('; ');
const press = (id) => byId(id).click();

// Types into the session, and gives what the card said and the note behind it.
function type(text) {
  byId('typed').value = text;
  byId('session').requestSubmit();
  const entry = byId('log').lastElementChild;
  return { said: entry.querySelector('.said')?.textContent ?? '', note: entry.querySelector('.note')?.textContent ?? '' };
}

function choose(id, value, event) {
  byId(id).value = value;
  byId(id).dispatchEvent(new Event(event, { bubbles: true }));
}

function newCard(cells) {
  choose('cells', cells, 'change');
  press('new');
}

const readyCommand = (name) => READY_COMMANDS.find(([each]) => each === name)[1];

// The image that the page shows is the card's own.
const isCards = () => hexOf(page.card.image()) === hexOf(page.image);

const isMarked = (mark) => document.querySelectorAll(`#image > .${mark}`).length;

const CHECKS = {
  start() {
    say(`squares ${byId('image').children.length}`);
    say(textOf('power'));
    say(textOf('room'));
    type(command('10008C', 'NOTES', Array(200).fill(0xFF)));
    say(`${innerWidth} pixels are enough: ${document.documentElement.scrollWidth <= innerWidth}`);
    const { lent } = page.library.heap;
    newCard('64');
    say(`no memory is kept by another card: ${page.library.heap.lent === lent}`);
    say(`requests ${performance.getEntriesByType('resource').length}`);
  },

  // The first way to ask is a statement: those that are ready, in a session that grants and takes back, and faults.
  statements() {
    newCard('64');
    const answered = (line) => {
      const { said: text, note } = type(line);
      say(`${line} -> ${text.replaceAll('\n', ' / ')}: ${note}`);
    };
    for (const line of READY_LINES) answered(line);
    const others = [
      "CREATE USER ISSUER DBOO 'issu1234'", 'PRESENT ISSUER', 'CREATE TABLE T (A, B)', "VERIFY 'wrong'", "VERIFY 'issu1234'", 'CREATE TABLE T (A, B)',
      "INSERT INTO T VALUES ('it''s', X'00FF')", 'SELECT B, A FROM T', 'OPEN CHANNEL 1', 'CHANNEL 1', 'SELECT * FROM T', 'CHANNEL 0', 'RESET', 'SELECT * FROM T',
    ];
    for (const line of others) answered(line);
    // Commands stand between statements, on the same channel.
    for (const each of [readyCommand('present OWNER, who has no secret'), 'CREATE TABLE NOTES (TEXT)', readyCommand('write the note ‘buy milk’'), 'SELECT * FROM NOTES']) say(type(each).said);
    say(`the card's image ${isCards()}`);
  },

  // What a line that is refused, or that is no statement, says and leaves.
  faults() {
    newCard('64');
    for (const line of ['PRESENT OWNER', 'CREATE TABLE NOTES (TEXT)']) type(line);
    const before = hexOf(page.image);
    const lines = [
      'DROP TABLE NONE', 'CREATE TABLE NOTES (TEXT)', 'DROP TABEL NOTES', 'drop table NOTES', 'SELECT * FROM', '  SELECT', 'BEGIN;;', '# a note', "INSERT INTO NOTES VALUES ('ÿ', 𝕊)",
      `SELECT * FROM NOTES WHERE ${Array(8).fill(`TEXT = '${'x'.repeat(40)}'`).join(' AND ')}`, ' '.repeat(999) + '.', ' '.repeat(1000) + '.',
    ];
    for (const line of lines) {
      const { said: text, note } = type(line);
      say(`${line.trim().slice(0, 40)} -> ${text}: ${note}`);
    }
    say(`the image stays ${before === hexOf(page.image)}, and is the card's ${isCards()}`);
  },

  tour() {
    press('tour-start');
    for (let step = 1; step <= 5; step++) {
      say(textOf('tour-step'));
      press('tour-go');
      say(`${textOf('power')} torn ${isMarked('torn')}. ${textOf('verdict')}`.trim());
    }
    say(textOf('tour-step'));
    press('tour-go');
    say(`hidden ${byId('tour').hidden}`);
  },

  cuts() {
    newCard('64');
    type(readyCommand('present OWNER, who has no secret'));
    type(readyCommand('make the user ANN'));
    const changes = [
      'make the table NOTES', 'write the note ‘buy milk’', 'let ANN read NOTES', 'change the row at the cursor', 'delete the row at the cursor', 'drop the table NOTES',
    ];
    for (const name of changes) {
      if (name.startsWith('change')) for (const each of ['declare a cursor on NOTES', 'open the cursor']) type(readyCommand(each));
      const { said: word } = type(readyCommand(name));
      const found = tryAll();
      const lost = found.another + found.refused;
      say(`${name}: ${word}, ${page.last.writes.length} writes, each moment ${found.moments === 3 * (total() + 1)}, before ${found.before > 0}, after ${found.after > 0}, lost ${lost}`);
    }
    say(`the card's image ${isCards()}`);
  },

  // Each moment of six changes by statements, two of them of two rows, and one that ends a transaction; and of a right secret behind a wrong one, which
  // commits twice.
  statement_cuts() {
    newCard('64');
    for (const line of ['PRESENT OWNER', 'CREATE USER ANN DBBU']) type(line);
    const changes = [
      ['CREATE TABLE NOTES (TEXT)'],
      ["INSERT INTO NOTES VALUES ('buy milk')"],
      ['GRANT SELECT, INSERT ON NOTES TO ANN'],
      ["INSERT INTO NOTES VALUES ('feed cat')", "UPDATE NOTES SET TEXT = 'x' WHERE TEXT <> ''"],
      ['BEGIN', "INSERT INTO NOTES VALUES ('a')", "INSERT INTO NOTES VALUES ('b')", 'COMMIT'],
      ["DELETE FROM NOTES WHERE TEXT = 'x'"],
      ["CREATE USER BOB DBBU '1234'", 'PRESENT BOB', "VERIFY '0000'", "VERIFY '1234'"],
    ];
    for (const lines of changes) {
      let closing = '';
      for (const line of lines) closing = type(line).said;
      const found = tryAll();
      const lost = found.another + found.refused;
      say(`${lines.at(-1)}: ${closing}, ${page.last.writes.length} writes, each moment ${found.moments === 3 * (total() + 1)}, before ${found.before > 0}, after ${found.after > 0}, between ${found.between > 0}, lost ${lost}`);
    }
    say(`the card's image ${isCards()}`);
    // A cut of a statement, and the card behind it, whose terminal is a new one.
    for (const line of ['OPEN CHANNEL 1', 'CHANNEL 1', 'PRESENT OWNER', "INSERT INTO NOTES VALUES ('gone')"]) type(line);
    move(middleOf(0));
    press('pull');
    say(`struck out: ${document.querySelector('.unsaid .asked').textContent}`);
    say(type('SELECT * FROM NOTES').note);
    press('put-back');
    say(textOf('verdict'));
    for (const line of ['SELECT * FROM NOTES', 'CHANNEL 1', 'SELECT * FROM NOTES', 'CHANNEL 0', 'PRESENT OWNER', 'SELECT * FROM NOTES']) say(type(line).said.replaceAll('\n', ' / '));
  },

  // What was written in a transaction isn't acknowledged to stay before its COMMIT.
  transaction() {
    newCard('64');
    for (const line of ['PRESENT OWNER', 'CREATE TABLE NOTES (TEXT)', 'BEGIN', "INSERT INTO NOTES VALUES ('buy milk')"]) type(line);
    say(byId('log').lastElementChild.querySelector('.note').textContent);
    for (const goOn of ['pull', 'put-back']) press(goOn);
    say(`acknowledged: ${textsIn('acknowledged')}. It holds: ${textsIn('records')}`);
    for (const line of ['PRESENT OWNER', 'BEGIN', "INSERT INTO NOTES VALUES ('buy milk')", 'COMMIT']) type(line);
    for (const moment of [1, total()]) {
      move(moment);
      for (const goOn of ['pull', 'put-back']) press(goOn);
      say(`acknowledged: ${textsIn('acknowledged')}. under way: ${textOf('under-way')}. It holds: ${textsIn('records')}`);
    }
    press('undo');
    say(`${byId('undo').disabled} ${textOf('verdict')}`);
    say(`struck out: ${document.querySelectorAll('.unsaid').length}`);
  },

  // A cut that a person makes within each write, with octets of one's own.
  own() {
    newCard('64');
    type(readyCommand('present OWNER, who has no secret'));
    type(readyCommand('make the user ANN'));
    choose('fill', 'own', 'change');
    choose('own', '0123456789ABCDEF', 'input');
    const { writes } = page.last;
    for (let number = 0; number < writes.length; number++) {
      byId('writes').children[number].querySelector('button').click();
      const where = textOf('moment-text');
      press('pull');
      const torn = isMarked('torn');
      press('put-back');
      say(`${where}: torn ${torn > 0}; ${textOf('verdict')}`);
    }
    say(`acknowledged: ${textsIn('acknowledged')}. under way: ${textOf('under-way')}`);
    say(textsIn('records'));
    press('undo');
    say(`${textOf('room')} the card's image ${isCards()}`);
  },

  refused() {
    newCard('16');
    const before = hexOf(page.image);
    type(readyCommand('present OWNER, who has no secret'));
    const none = command('10008C', 'NONE', 'no table');
    for (const text of [none, '0010008C0F034E4F5441056669727374', 'hello', '<b>bold</b>', '0', 'F'.repeat(9000), 'F'.repeat(9001), '00', 'ÿ𝕊']) {
      const { said: word, note } = type(text);
      say(`${text === none ? text : text.slice(0, 32)} -> ${word}: ${note}`);
    }
    type('   ');
    say(`the image stays ${before === hexOf(page.image)}, and nothing is bold ${document.querySelector('#log b') === null}`);
    say(type('0014008006054F574E4552').said);
    press('pull');
    say(`nothing to cut: ${textOf('power')} ${textOf('moment-text')}`);
  },

  // Texts of all kinds, and cuts between them, with octets of one's own that are none.
  texts() {
    newCard('64');
    let seed = 48;
    const below = (limit) => {
      seed = (seed * 48271) % 2147483647;
      return seed % limit;
    };
    const octets = (count) => Array.from({ length: count }, () => below(256));
    const headers = Object.keys(OPERATIONS);
    const parts = [...new Set(READY_LINES.flatMap((line) => line.split(' ')))];
    const words = (count) => Array.from({ length: count }, () => parts[below(parts.length)]).join(' ');
    const kinds = [
      () => hexOf(octets(below(300))),
      () => command(headers[below(headers.length)], octets(below(9)), octets(below(9))),
      () => String.fromCharCode(...Array.from({ length: below(60) }, () => below(65536))),
      () => words(below(12)),
    ];
    choose('fill', 'own', 'change');
    for (let count = 0; count < 400; count++) {
      type(count % 2 === 0 ? readyCommand('present OWNER, who has no secret') : 'PRESENT OWNER');
      const text = kinds[count % 4]();
      type(text);
      choose('own', text, 'input');
      move(below(total() + 1));
      press('pull');
      press('put-back');
    }
    say(`the card's image ${isCards()}`);
    say(type(readyCommand('present OWNER, who has no secret')).said);
    say(type(readyCommand('make the user ANN')).said);
    choose('own', 'no octets', 'input');
    say(`octets of one's own that are none are marked ${byId('own').ariaInvalid}`);
    choose('own', '00 FF', 'input');
    say(`and others aren't ${byId('own').ariaInvalid}`);
    // Half a character in the session would end --dump-dom.
    newCard('64');
  },

  full() {
    newCard('16');
    type(readyCommand('present OWNER, who has no secret'));
    type(readyCommand('make the table NOTES'));
    const words = [];
    for (let row = 0; row < 14; row++) words.push(type(readyCommand('write the note ‘feed cat’')).said);
    say(words.join(' '));
    say(textOf('room'));
    say(byId('log').lastElementChild.querySelector('.note').textContent);
    for (const name of ['declare a cursor on NOTES', 'open the cursor', 'delete the row at the cursor']) say(type(readyCommand(name)).said);
    const found = tryAll();
    say(`lost ${found.another + found.refused} of ${found.moments > 0}`);
    say(`the card's image ${isCards()}`);
  },

  // A card that a statement finds full, and of which another makes room.
  statement_full() {
    newCard('16');
    for (const line of ['PRESENT OWNER', 'CREATE TABLE NOTES (TEXT)']) type(line);
    const words = [];
    for (let row = 0; row < 14; row++) words.push(type(`INSERT INTO NOTES VALUES ('${row}')`).said);
    say(words.join(', '));
    say(textOf('room'));
    say(byId('log').lastElementChild.querySelector('.note').textContent);
    say(type('SELECT * FROM NOTES').said.replaceAll('\n', ' '));
    say(type("DELETE FROM NOTES WHERE TEXT > '5'").said);
    const found = tryAll();
    say(`lost ${found.another + found.refused} of ${found.moments > 0}`);
    say(type("INSERT INTO NOTES VALUES ('again')").said);
    say(`the card's image ${isCards()}`);
  },

  // A text of many octets: each row of a card of 2,048 cells.
  long_text() {
    newCard('2048');
    for (const line of ['PRESENT OWNER', 'CREATE TABLE NOTES (TEXT)']) type(line);
    const value = 'long '.repeat(30);
    for (let row = 0; row < 100; row++) type(`INSERT INTO NOTES VALUES ('${value}')`);
    const lines = type('SELECT * FROM NOTES').said.split('\n');
    say(`${lines.filter((line) => line === `'${value}'`).length} ${lines.at(-1)}`);
  },

  large() {
    newCard('2048');
    say(`squares ${byId('image').children.length}`);
    say(type(readyCommand('present OWNER, who has no secret')).said);
    say(type(readyCommand('make the user ANN')).said);
    move(3);
    press('pull');
    press('put-back');
    say(textOf('verdict'));
    say(`the card's image ${isCards()}`);
  },

  keys() {
    const key = (id, name) => byId(id).dispatchEvent(new KeyboardEvent('keydown', { key: name, bubbles: true, cancelable: true }));
    key('image', 'ArrowRight');
    say(textOf('square-what'));
    key('image', 'End');
    say(textOf('square-what'));
    key('image', 'Home');
    say(textOf('square-what'));
    type('00');
    key('typed', 'ArrowUp');
    say(byId('typed').value);
    choose('ready', readyCommand('open the cursor'), 'change');
    say(byId('typed').value);
    const focusable = [...document.querySelectorAll('button, input, select')].filter((each) => each.tabIndex < 0).length;
    say(`not reached by Tab: ${focusable}`);
    const unnamed = [...document.querySelectorAll('input, select')].filter((each) => each.labels.length === 0).length;
    say(`without a name: ${unnamed}`);
  },

  // What is answered and what is in the EEPROM, to be compared with card_cli.
  walk() {
    newCard('64');
    for (const text of WALK) say(type(text).said.replace(' ', ''));
    say(hexOf(page.image));
  },

  statement_walk() {
    newCard('64');
    for (const text of LINES) {
      const { said: answer } = type(text);
      if (answer !== '') say(answer);
    }
    say(hexOf(page.image));
  },

  // What the two pictures of docs/PAGE.md show.
  torn() {
    press('tour-start');
    for (let step = 1; step <= 3; step++) press('tour-go');
    scrollTo(0, 0);
  },

  back() {
    document.documentElement.style.colorScheme = 'dark';
    newCard('64');
    for (const line of READY_LINES.slice(0, 4)) type(line);
    press('earlier');
    press('earlier');
    press('pull');
    press('put-back');
  },
};

for (const name of WANTED) {
  try {
    CHECKS[name]();
  } catch (error) {
    say(`the page failed: ${error}`);
  }
}
const results = document.createElement('pre');
results.id = 'results';
results.hidden = true;
results.textContent = `\n${said.join('\n')}\n`;
document.body.append(results);
