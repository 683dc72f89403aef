// What the page of `draw` and the workbench share. tools/viewer.py writes it into both; change it here.

const FIELD = { marks: 0, a: 1, b: 2, result: 3, ways: 4, md: 5, inputs: 6, fetches: 7, misses: 8, squashes: 9, interrupts: 10,
  byte: 11, registers: 12, address: 13, word: 14 };
const STAGES = ['IF', 'RF', 'ALU', 'MEM', 'WB'];
const WAYS = ['', 'file', 'bypass in RF', 'bypass in ALU'];
const ROW = 20, COLUMN = 38, HEAD = 38, KEPT = 64, STAY = 15, MOST_CONSOLE = 65536;

const find = id => document.getElementById(id);
const element = (name, look, words) => {
  const made = document.createElement(name);
  if (look) made.className = look;
  if (words !== undefined) made.textContent = words;
  return made;
};
const hex = (n, digits = 8) => (n >>> 0).toString(16).padStart(digits, '0');
const bytesOf = text => Uint8Array.from(text, sign => sign.charCodeAt(0));
const textOf = bytes => new TextDecoder().decode(bytes);
// The character of a register or a word that holds one byte of ASCII: the console takes bytes.
const character = n => n >= 32 && n < 127 ? String.fromCharCode(n) : '';
const within = (n, low, high) => Math.max(low, Math.min(high, n));

// The index of the last of some sorted numbers that is at most n, -1 where there is none.
const lastUpTo = (count, at, n) => {
  let low = 0, high = count;
  while (low < high) {
    const middle = (low + high) >> 1;
    if (at(middle) <= n) low = middle + 1; else high = middle;
  }
  return low - 1;
};

// ---- a range of cycles ----

// How a page shows a run: the origin of a word and its line, the lines above the listing, and what it adds to the reason of a no-op.
const AS_IT_IS = { origin: origin => origin, line: line => line, words: null, more: () => '' };

class Range {
  constructor(data, shown = AS_IT_IS) {
    this.data = data;
    this.shown = shown;
    this.words = shown.words;
    this.from = data.from;
    this.cycles = data.cycles;
    this.count = data.cycles.length;
    this.readListing();
    this.readRegisters();
    this.readWords();
  }

  readListing() {
    const { data, cycles } = this;
    // Of each cycle the last one up to it that has an array: a stalled cycle changes nothing.
    this.full = new Int32Array(this.count);
    for (let k = 0; k < this.count; k++) this.full[k] = typeof cycles[k] === 'number' ? this.full[k - 1] : k;
    this.listing = new Map();
    // What the listing shows: the words, and above those of another line of C that line.
    this.entries = [];
    let above = 0;
    for (const [address, word, text, origin, line, a, b, kind] of data.listing) {
      const held = { address, word, text, origin: this.shown.origin(origin, line), line: this.shown.line(line), reads: [a, b], kind, isCopy: origin[0] === '+', isNoOp: origin === '-',
        // its line of what is run
        from: line };
      if (this.words && held.line && held.line !== above) this.entries.push({ words: held.line + ': ' + (this.words[held.line - 1] || '').trim() });
      above = held.line || above;
      held.k = this.entries.length;
      this.entries.push(held);
      this.listing.set(address, held);
    }
    this.rows = data.rows.map(([address, begins, cells], k) => ({ address, begins, cells, fetch: data.first + k }))
      .filter(row => row.cells.trim() !== '');
    this.rows.forEach((row, k) => { row.k = k; });
    // of several labels of one place the first is shown, as elsewhere
    this.labels = new Map(data.labels.map(([name, address, kind]) => [kind + address, name]).reverse());
  }

  // The registers as a cycle leaves them. Those of each 64th cycle are kept.
  readRegisters() {
    this.kept = [];
    const running = new Array(32).fill(0);
    for (let k = 0; k < this.count; k++) {
      this.put(running, k);
      if (k % KEPT === 0) this.kept.push(running.slice());
    }
  }

  // What each data word held, from which cycle on; and the bytes that were sent.
  readWords() {
    this.held = new Map();
    for (const [first, ...values] of this.data.words) values.forEach((value, j) => this.held.set(first + j, [[-1, value]]));
    this.before = bytesOf(this.data.before);
    this.sent = [];
    for (let k = 0; k < this.count; k++) {
      if (typeof this.cycles[k] === 'number') continue;
      const byte = this.field(k, 'byte'), address = this.field(k, 'address');
      if (byte >= 0) this.sent.push([k, byte]);
      else if (address >= 0) {
        if (!this.held.has(address)) this.held.set(address, [[-1, 0]]);
        this.held.get(address).push([k, this.field(k, 'word')]);
      }
    }
    this.addresses = [...this.held.keys()].sort((a, b) => a - b);
  }

  has(cycle) { return cycle >= this.from && cycle < this.from + this.count; }
  marks(k) { return typeof this.cycles[k] === 'number' ? this.cycles[k] : this.cycles[k][FIELD.marks]; }
  isStalled(k) { return (this.marks(k) & 1) !== 0; }
  field(k, name) { return this.cycles[this.full[k]][FIELD[name]]; }

  put(registers, k) {
    if (typeof this.cycles[k] === 'number') return;
    const changes = this.cycles[k][FIELD.registers];
    for (let j = 0; j < changes.length; j += 2) registers[changes[j]] = changes[j + 1];
  }

  registers(k) {
    const base = k - k % KEPT, found = this.kept[base / KEPT].slice();
    for (let j = base + 1; j <= k; j++) this.put(found, j);
    return found;
  }

  wordAt(address, k) {
    const values = this.held.get(address);
    return values[lastUpTo(values.length, j => values[j][0], k)];
  }

  // What was sent up to a cycle; of a long console the end alone.
  console(k) {
    const many = lastUpTo(this.sent.length, j => this.sent[j][0], k) + 1, whole = this.before.length + many, left = Math.max(0, whole - MOST_CONSOLE);
    const before = this.before.subarray(Math.min(left, this.before.length)), first = Math.max(0, left - this.before.length);
    const bytes = new Uint8Array(before.length + many - first);
    bytes.set(before);
    for (let j = first; j < many; j++) bytes[before.length + j - first] = this.sent[j][1];
    return (left ? `(the first ${left} bytes are left out)\n` : '') + textOf(bytes);
  }

  // The rows that have a cell in a cycle, the oldest first.
  rowsAt(k) {
    const found = [];
    for (let j = lastUpTo(this.rows.length, j => this.rows[j].begins, k); j >= 0 && this.rows[j].begins > k - STAY; j--)
      if (signAt(this.rows[j], k) !== ' ') found.unshift(this.rows[j]);
    return found;
  }
}

// What a sign of a row's cells says.
const cellOf = sign => {
  if (sign === 'w') return { stage: 0, look: 'waits', word: 'wait' };
  const stage = '01234'.indexOf(sign), squashed = 'abcde'.indexOf(sign), killed = 'ABCDE'.indexOf(sign);
  if (stage >= 0) return { stage, look: STAGES[stage], word: STAGES[stage] };
  if (squashed >= 0) return { stage: squashed, look: 'squashed', word: STAGES[squashed] };
  if (killed >= 0) return { stage: killed, look: 'killed', word: STAGES[killed] };
  return null;
};
const signAt = (row, k) => row.cells[k - row.begins] || ' ';
const tagOf = sign => {
  const cell = cellOf(sign);
  if (cell.look === 'waits') return 'waits';
  return cell.word + (cell.look === 'squashed' ? '*' : cell.look === 'killed' ? '!' : '');
};

// ---- reasons ----

const place = address => address < 0 ? '' : hex(address, 4);

// What is said of a slot with a no-op: who found no instruction for it.
const EMPTY = { padded: 'padded plans have none', list: 'the list scheduler found none', copies: 'the list scheduler found none',
  best: 'the plan of its block has none',
  plans: 'the plans of the file have none' };

// Why a no-op stands at an address: the words before it tell.
const whyNoOp = (range, address) => {
  const last = range.listing.get(address - 1), other = range.listing.get(address - 2);
  const transfer = [last, other].find(word => word && word.kind >= 3);
  if (transfer) return 'no-op in a slot of ' + place(transfer.address) + ': ' + EMPTY[range.data.scheduler] + range.shown.more(range, address);
  if (last && last.kind === 1)
    return 'no-op after the load at ' + place(last.address) + ': ' + EMPTY[range.data.scheduler] + range.shown.more(range, address);
  return 'no-op';
};
const whySquashed = (range, row) => {
  const branch = [range.rows[row.k - 1], range.rows[row.k - 2]].find(other => other && range.listing.has(other.address) && range.listing.get(other.address).kind === 4);
  return branch ? 'squashed: the branch at ' + place(branch.address) + ' did not hold' : 'squashed';
};

// Which way each operand of the word in ALU came.
const operandsAt = (range, row, k) => {
  const word = range.listing.get(row.address), ways = range.field(k, 'ways');
  if (!word) return [];
  return [ways % 4, ways >> 2].map((way, j) => ({ way, register: word.reads[j], value: range.field(k, j ? 'b' : 'a') })).filter(it => it.way > 0);
};
// What the word in ALU does there: where a transfer goes, what the others make.
const madeBy = (range, word, k) => {
  const result = range.field(k, 'result'), type = word.word >>> 30, code = word.word >>> 27 & 7, goes = address => 'goes to ' + place(address & 0xffff);
  if (type === 0 && code < 6) return result ? goes(word.address + (word.word << 16 >> 16)) : 'does not hold';
  if (type === 3 && code === 1) return goes(range.field(k, 'a') + (word.word << 15 >> 15)) + (word.word >>> 17 & 31 ? ', makes ' + hex(result) : '');
  return type === 3 && code > 1 ? '' : 'makes ' + hex(result);
};
// In which of its two cycles a fetch waits that is not in the cache.
const waitOf = (range, k) => (k + 1 < range.count ? range.isStalled(k + 1) : k - lastMoving(range, k) < 2) ? 1 : 2;
const whyAt = (range, row, k) => {
  const sign = signAt(row, k), cell = cellOf(sign), word = range.listing.get(row.address), reasons = [];
  if (sign === 'w') {
    reasons.push(`not in the cache, stalled cycle ${waitOf(range, k)} of 2`);
    const fetched = heldRow(range, 0, lastMoving(range, k));
    if (fetched) reasons.push(place(fetched.address) + ' before it waits to enter RF');
  }
  if (cell.look === 'squashed') reasons.push(whySquashed(range, row));
  if (cell.look === 'killed') reasons.push('killed by the interrupt');
  if (!word && row.address >= 0) reasons.push('no word of the program');
  if (word && word.isNoOp && STAGES.includes(cell.look)) reasons.push(whyNoOp(range, row.address));
  if (sign === '2' || sign === 'C')
    for (const it of operandsAt(range, row, k)) reasons.push('r' + it.register + ' = ' + hex(it.value) + ' (' + WAYS[it.way] + ')');
  if (sign === '2' && word && !word.isNoOp) reasons.push(madeBy(range, word, k));
  if (sign === '3' && word && word.kind === 2)
    reasons.push(range.field(k, 'byte') >= 0 ? 'sends ' + hex(range.field(k, 'byte'), 2) : 'stores ' + hex(range.field(k, 'word')) + ' at ' + place(range.field(k, 'address')));
  return reasons.filter(it => it).join('; ');
};

// What a stage holds in a stalled cycle: what it held in the last cycle that was not, since nothing moves.
const lastMoving = (range, at) => {
  while (at >= 0 && range.isStalled(at)) at--;
  return at;
};
// The row of what a stage holds behind a cycle; none where an interrupt has killed it there.
const heldRow = (range, n, moved) => {
  const row = moved < 0 ? null : range.rowsAt(moved).find(it => cellOf(signAt(it, moved)).stage === n);
  return row && !isKilled(row, moved) ? row : null;
};
const isKilled = (row, k) => cellOf(signAt(row, k)).look === 'killed';
const heldIn = (range, stage, n, at) => {
  const moved = lastMoving(range, at), row = heldRow(range, n, moved), word = row && range.listing.get(row.address);
  const wasKilled = moved >= 0 && range.rowsAt(moved).some(it => isKilled(it, moved) && cellOf(signAt(it, moved)).stage === n);
  if (!row) return { cells: [stage, '', '', '', wasKilled ? 'empty: the interrupt killed what was here' : 'empty'] };
  const held = cellOf(signAt(row, moved)).look === 'squashed' ? 'squashed; held by the stall' : 'held by the stall';
  return { row, cells: [stage, place(row.address), word ? word.text : '', word ? word.origin : '', held] };
};

// ---- the picture ----

// In a stalled cycle a word stays in the stage that it was in.
const heldCell = (range, row, j) => {
  const moved = lastMoving(range, row.begins + j) - row.begins, cell = moved >= 0 && moved < j ? cellOf(row.cells[moved] || ' ') : null;
  if (!cell || cell.look === 'waits' || cell.look === 'killed') return null;
  return { ...cell, look: cell.look === 'squashed' ? 'held squashed' : 'held' };
};
// The cells of a row by their columns, with those in stalled cycles, also behind the last one.
const cellsOf = (range, row) => {
  const found = [], isStalled = k => k < range.count && range.isStalled(k);
  for (let j = 0; j < row.cells.length || isStalled(row.begins + j); j++) {
    const cell = cellOf(row.cells[j] || ' ') || heldCell(range, row, j);
    if (cell) found.push([j, cell]);
  }
  return found;
};
// The rows that are in a stage in a cycle, the oldest first: also those that a stalled cycle holds there.
const rowsIn = (range, k) => {
  const moved = lastMoving(range, k), held = moved < k && moved >= 0 ? range.rowsAt(moved).filter(row => !isKilled(row, moved)) : [];
  return [...held, ...range.rowsAt(k)];
};

// An arrow of the picture, as its line and its tip.
const SVG = 'http://www.w3.org/2000/svg';
const arrow = (fromX, fromY, toX, toY) => {
  const path = document.createElementNS(SVG, 'path'), tip = document.createElementNS(SVG, 'path');
  const turn = Math.atan2(toY - fromY, toX - fromX), side = d => `${toX - 7 * Math.cos(turn + d)} ${toY - 7 * Math.sin(turn + d)}`;
  path.setAttribute('d', `M${fromX} ${fromY}L${toX} ${toY}`);
  tip.setAttribute('class', 'tip');
  tip.setAttribute('d', `M${toX} ${toY}L${side(.5)}L${side(-.5)}Z`);
  return [path, tip];
};

// ---- tables ----

// A table's roles are told, since a narrow screen shows its rows as grids.
const lineOf = (names, role, look) => {
  const line = element('tr');
  line.setAttribute('role', 'row');
  names.forEach((words, k) => {
    const cell = line.appendChild(element(role && k ? 'td' : 'th', look[k], role ? '' : words));
    cell.setAttribute('role', role && k ? 'cell' : role || 'columnheader');
  });
  return line;
};

// Fills a table. Its cells stay, and only those that have changed are written.
const fill = (id, heads, entries, look = []) => {
  const table = find(id), above = heads ? 1 : 0;
  if (table.rows.length !== entries.length + above) {
    table.setAttribute('role', 'table');
    table.replaceChildren(...(heads ? [lineOf(heads, '', look)] : []), ...entries.map(entry => lineOf(entry.cells, 'rowheader', look)));
  }
  entries.forEach((entry, n) => {
    const line = table.rows[n + above];
    if (line.className !== (entry.look || '')) line.className = entry.look || '';
    entry.cells.forEach((words, k) => {
      const cell = line.cells[k], told = String(words);
      if (cell.textContent !== told) cell.textContent = told;
    });
  });
};

// ---- search ----

const isFound = {
  store: (range, k) => !range.isStalled(k) && (range.field(k, 'address') >= 0 || range.field(k, 'byte') >= 0),
  byte: (range, k) => !range.isStalled(k) && range.field(k, 'byte') >= 0,
  interrupt: (range, k) => (range.marks(k) & 4) !== 0,
  squash: (range, k) => k > 0 && range.field(k, 'squashes') > range.field(k - 1, 'squashes'),
};

const STEPS = { ArrowRight: 1, ArrowLeft: -1, ArrowDown: 1, ArrowUp: -1, PageDown: 16, PageUp: -16, Home: -Infinity, End: Infinity };
