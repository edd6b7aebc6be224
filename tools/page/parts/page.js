(() => {
'use strict';
// Reads what each event above changed, and plays that forward and back.
const doc = document, list = doc.querySelector('body>ol');
const text = (e, tag) => { const x = e.querySelector(tag); return x ? x.textContent : undefined; };
const make = (tag, cls, ...inside) => { const e = doc.createElement(tag); if (cls) e.className = cls; e.append(...inside); return e; };
const drawn = (tag, cls, more) => {
  const e = doc.createElementNS('http://www.w3.org/2000/svg', tag);
  e.setAttribute('class', cls);
  for (const k in more) e.setAttribute(k, more[k]);
  return e;
};
// A text's bytes as hexadecimal digits: keys and names stand in the order of their bytes.
const codes = {}, odd = ' 40.4B<4C(4D+4E&50$5B*5C)5D;5E-60/61,6B%6C_6D>6E?6F:7A#7B@7C\'7D=7E"7F';
for (let i = 0; i < odd.length; i += 3) codes[odd[i]] = odd.slice(i + 1, i + 3);
const runs = [['a', 129, 9], ['j', 145, 9], ['s', 162, 8], ['A', 193, 9], ['J', 209, 9], ['S', 226, 8], ['0', 240, 10]];
for (const [first, code, n] of runs)
  for (let i = 0; i < n; i++) codes[String.fromCharCode(first.charCodeAt(0) + i)] = (code + i).toString(16).toUpperCase();
const hex = t => t[0] === 'X' ? t.slice(2, -1) : Array.from(t.slice(1, -1).replace(/''/g, "'"), c => codes[c]).join('');
// Beside a text in digits its characters, as in a picture: a dot for each byte that has none.
const characters = {};
for (const c in codes) characters[codes[c]] = c;
const beside = t => t && t[0] === 'X' ? make('small', '', '|' + hex(t).replace(/../g, x => characters[x] || '.') + '|') : '';
const compare = (a, b) => a < b ? -1 : a > b ? 1 : 0;

// ---- reading: boxes (files, queues, the values of enqueues) with their cells, units, events

const boxes = new Map(), cells = [], ends = new Map(), units = [], labels = [], event = [null], state = new Map(), open = {};
const boxOf = (kind, name) => {
  const id = kind + ' ' + name;
  if (!boxes.has(id)) boxes.set(id, {id, kind, name, word: 'RECOVERABLE', cells: new Map(), ends: []});
  return boxes.get(id);
};
const cellOf = (box, key) => {
  if (!box.cells.has(key)) {
    const cell = {id: cells.length, box, key, still: true, sort: box.kind === 'ts' || box.kind === 'td' ? +key : hex(key)};
    cells.push(cell);
    box.cells.set(key, cell);
  }
  return box.cells.get(key);
};
// What is held or waited for: a cell, or something of a box. Its id is where the state has its owner.
const resource = (kind, name, key) => {
  const box = kind === 'enq' ? boxOf(kind, "''") : boxOf({pre: 'file', rd: 'td', wr: 'td'}[kind] || kind, name);
  const r = {kind, box, key, hex: key === undefined ? '' : hex(key)};
  if (kind === 'file' || kind === 'enq') {
    r.cell = cellOf(box, key);
    r.cell.still = false;
    r.id = 'h' + r.cell.id;
  } else r.id = 'h ' + kind + ' ' + r.hex + ' ' + box.id;
  return r;
};
const readNote = (p, e) => {
  const [what, kind] = p.classList, b = text(p, 'b'), i = text(p, 'i'), o = {what, unit: e && open[e.label] || 0};
  if (what === 'def') boxOf(kind, i).word = b;
  if (what === 'set') {
    const cell = o.cell = cellOf(boxOf(kind, i), b);
    o.was = text(p, 'del');
    o.is = text(p, 'ins');
    o.stays = p.classList.contains('stays');
    if (kind === 'ts' && o.stays) cell.box.word = 'UNRECOVERABLE';
    if (e) { cell.still = false; e.sets.set(cell, o); e.touches.add(cell); } else state.set('v' + cell.id, o.is);
  }
  if (!e) return;
  if (what === 'cur') { o.box = boxOf('ts', i); o.is = text(p, 'ins'); }
  if (what === 'own' || what === 'off') {
    o.r = resource(kind, i, b);
    o.count = kind === 'enq' ? +i : 1;
    if (o.r.cell) e.touches.add(o.r.cell);
    else if (!ends.has(o.r.id)) { ends.set(o.r.id, o.r.box); o.r.box.ends.push(o.r.id); }
  }
  if (what === 'ask') { e.wants = resource(kind, i, b); e.asks = p.textContent.slice(6); if (e.wants.cell) e.touches.add(e.wants.cell); }
  if (what === 'beg') { o.unit = open[e.label] = event.length; units[o.unit] = {label: e.label, how: kind, first: o.unit, ids: new Set()}; }
  if (what === 'com' || what === 'bak') { o.unit = open[b]; open[b] = 0; units[o.unit].last = event.length; e.ends.push(o.unit); }
  e.ops.push(o);
};
Array.from(list.children, (li, i) => {
  for (const p of li.children) if (p.tagName === 'P') readNote(p);
  for (const el of li.children) if (el.tagName === 'DIV') {
    const samp = text(el, 'samp'), e = {el, li, line: i + 1, text: samp, label: samp.split(' ')[0], kinds: Array.from(el.classList),
      ops: [], sets: new Map(), touches: new Set(), ends: []};
    e.is = (...kinds) => kinds.some(k => e.kinds.includes(k));
    if (e.is('att')) labels.push(e.label);
    for (const p of el.children) if (p.tagName === 'P') readNote(p, e);
    e.backs = e.ops.some(o => o.what === 'bak');
    e.turns = e.backs || e.is('wai', 'wok', 'abe', 'dwn', 'flt');
    event.push(e);
  }
});
const last = event.length - 1;

// ---- playing. The state has, each under its letter: v the text of a cell, m the mark of an open unit
// on it, l the event that last wrote it; h the owner of a resource; c the cursor of a queue; t, u, w, e
// of a task the events at which it was attached, its unit began, it began to wait, it ended

let at = 0;
const undo = [], changed = new Set(), owner = h => units[h.unit].label, rank = new Map(labels.map((t, i) => [t, i]));
const forward = n => {
  const e = event[n], log = undo[n] = [];
  const put = (key, value, of) => {
    log.push([key, state.get(key), of]);
    value === undefined ? state.delete(key) : state.set(key, value);
    if (of) changed.add(of);
  };
  const end = t => { put('w' + t); put('e' + t, n); };
  if (e.is('att')) put('t' + e.label, n);
  if (e.is('wai')) put('w' + e.label, n);
  if (e.is('wok')) put('w' + e.label);
  if (e.is('end', 'abe')) end(e.label);
  if (e.is('dwn')) for (const t of labels) if (state.has('t' + t) && !state.has('e' + t)) end(t);
  if (e.is('clk')) put('clock', e.text.slice(6));
  for (const o of e.ops) {
    const unit = units[o.unit];
    if (o.what === 'beg') put('u' + e.label, n);
    if (o.what === 'own') {
      const before = state.get(o.r.id);
      put(o.r.id, {unit: o.unit, n: before ? before.n : n, count: o.count, r: o.r}, o.r.cell || o.r.box);
      unit.ids.add(o.r.id);
    }
    if (o.what === 'off') put(o.r.id, undefined, o.r.cell || o.r.box);
    if (o.what === 'cur') put('c' + o.box.id, o.is, o.box);
    if (o.what === 'com' || o.what === 'bak') {
      put('u' + unit.label);
      for (const id of unit.ids) {
        const x = state.get(id), cell = cells[id.slice(1)];
        if (!x || x.unit !== o.unit) continue;
        if (o.what === 'bak' && id[0] === 'm' && !x.stays) put('l' + cell.id, x.wrote);
        put(id, undefined, cell || ends.get(id));
      }
    }
    if (o.what === 'set') {
      const id = o.cell.id, m = state.get('m' + id), mine = m && m.unit === o.unit;
      if (o.unit) {
        put('m' + id, {unit: o.unit, n, was: mine ? m.was : o.was, wrote: mine ? m.wrote : state.get('l' + id), stays: o.stays});
        unit.ids.add('m' + id);
      }
      put('v' + id, o.is, o.cell);
      if (o.unit || o.stays) put('l' + id, n);
    }
  }
};
const back = n => {
  for (const [key, value, of] of undo[n].reverse()) {
    value === undefined ? state.delete(key) : state.set(key, value);
    if (of) changed.add(of);
  }
};
// What other units hold that blocks a waiting task, one for each owner, in the order of attach: by the rules of holding.
const blockers = t => {
  const want = event[state.get('w' + t)].wants, unit = state.get('u' + t) || 0, found = new Map();
  const add = h => { if (h && h.unit !== unit && !found.has(owner(h))) found.set(owner(h), h); };
  const end = kind => add(state.get('h ' + kind + '  ' + want.box.id)), inside = Array.from(want.box.cells.values());
  // Another unit's mark has what is there without that unit.
  const committed = c => { const m = state.get('m' + c.id); return (m && m.unit !== unit ? m.was : state.get('v' + c.id)) !== undefined; };
  if (want.kind === 'file' || want.kind === 'pre') {
    const held = want.box.ends.concat(want.cell ? want.id : inside.map(c => 'h' + c.id)).map(id => state.get(id));
    held.filter(h => h && (h.r.hex.startsWith(want.hex) || want.hex.startsWith(h.r.hex))).sort((a, b) => compare(a.r.hex, b.r.hex)).forEach(add);
  } else if (want.kind === 'rd' || want.kind === 'td') {
    end('rd');
    if (want.kind === 'td' || !inside.some(committed)) end('wr');
  } else add(state.get(want.id));
  return Array.from(found.values()).sort((a, b) => rank.get(owner(a)) - rank.get(owner(b)));
};
// Of tasks that reach each other over blockers the shortest circle from the first of them on.
const deadlocks = by => {
  const rings = [], told = new Set();
  for (const first of by.keys()) if (!told.has(first)) {
    const from = new Map([[first, null]]), group = new Set([first]), ring = [];
    let last = null;
    for (const t of from.keys()) for (const b of by.get(t) || []) {
      if (b === first && last === null) last = t;
      if (!from.has(b)) from.set(b, t);
    }
    if (last === null) continue;
    for (let t = last; t !== null; t = from.get(t)) ring.unshift(t);
    rings.push(ring);
    for (let n = 0; n < group.size;) {
      n = group.size;
      for (const t of from.keys()) if ((by.get(t) || []).some(b => group.has(b))) group.add(t);
    }
    group.forEach(t => told.add(t));
  }
  return rings;
};

// ---- showing

const page = doc.querySelector('template').content.cloneNode(true), part = id => page.getElementById(id);
const [bar, look, say, tasks, slider, where] = ['bar', 'look', 'say', 'tasks', 'step', 'at'].map(part);
const link = n => { const a = make('a', '', 'line ' + event[n].line); a.href = '#s' + n; return a; };
const tag = (cls, ...inside) => make('span', 'tag ' + cls, ...inside);
const past = n => tag('past', event[n].label, ', ', link(n));
const was = (words, old, n) => make('div', 'was', words, make('del', '', old), beside(old), n ? past(n) : '');
let waits = [];

const showCell = c => {
  const [v, m, h, l] = Array.from('vmhl', k => state.get(k + c.id)), o = at ? event[at].sets.get(c) : undefined;
  const waiting = waits.filter(w => w.want.cell === c), undone = o && event[at].backs && !o.stays;
  const left = make('div'), tags = make('span', 'tags'), old = m && m.was !== undefined ? m.was : o && o.was;
  c.el.hidden = v === undefined && old === undefined && !h && !waiting.length;
  if (c.el.hidden) return;
  c.el.className = (undone ? 'new back' : at && event[at].touches.has(c) ? 'new' : '') + (c.still ? ' still' : '');
  const shown = [v, old, c.key].find(t => t !== undefined);
  left.append(make('code', v !== undefined ? '' : old === undefined ? 'key' : 'no', shown), beside(shown));
  if (v !== undefined && o && o.was !== undefined && !(m && m.was === o.was)) left.append(was('was', o.was));
  if (v !== undefined && m && m.was !== undefined) left.append(was('before ' + owner(m), m.was, m.wrote));
  const added = m && m.was === undefined ? ' added' : '', removed = v === undefined ? ' removed' : '', did = added + (added && removed && ' and') + removed;
  if (m) tags.append(tag(m.stays ? 'stay' : 'mine', owner(m), did, ', ', link(m.n)));
  if (h && !(m && !m.stays)) tags.append(tag('hold', owner(h), ' holds', h.count > 1 ? ' \u00d7' + h.count : '', ', ', link(h.n)));
  if (undone) tags.append(tag('back', v === undefined ? 'taken out' : 'put back'));
  else if (!m && !h && l && v !== undefined) tags.append(past(l));
  for (const w of waiting) tags.append(tag('wait', w.label, ' waits'));
  c.el.replaceChildren(left, tags);
};
const showHead = b => {
  const all = Array.from(b.cells.values()), n = all.filter(c => state.has('v' + c.id)).length, cursor = state.get('c' + b.id), tags = make('span', 'tags');
  if (n && cursor > 0) tags.append(tag('past', 'cursor ', cursor));
  for (const h of b.ends.map(id => state.get(id))) if (h)
    tags.append(tag('hold', owner(h), {pre: ' holds prefix ' + h.r.key, ts: ' holds it', rd: ' reads', wr: ' writes'}[h.r.kind], ', ', link(h.n)));
  for (const w of waits) if (!w.want.cell && w.want.box === b) tags.append(tag('wait', w.label, ' waits'));
  b.el.hidden = b.kind !== 'file' && b.kind !== 'td' && !tags.firstChild && all.every(c => c.el.hidden);
  b.head.className = b.kind === 'ts' && !n ? 'gone' : '';
  b.head.replaceChildren(make('span', '', b.kind === 'enq' ? 'ENQUEUES'
    : [{file: 'FILE', ts: 'TSQUEUE', td: 'TDQUEUE'}[b.kind], b.name, b.word, b.kind === 'ts' ? 'ITEMS' : 'RECORDS', n].join(' ')), tags);
};
const showTasks = () => {
  const rows = make('dl'), idle = [], over = make('dd', 'over clip'), by = new Map();
  for (const t of labels) if (state.has('t' + t)) {
    const n = state.get('w' + t), e = event[n], unit = state.get('u' + t), dd = make('dd', n ? 'wait' : ''), ended = state.get('e' + t);
    if (ended) over.append(over.firstChild ? ', ' : '', t, event[ended].is('abe') ? ' abended in ' : ' in ', link(ended));
    else if (n) {
      const held = blockers(t), why = make('small', '', e.asks, held.length ? '; ' : '; free now');
      held.forEach((h, i) => why.append(i ? ', ' : '', e.wants.kind !== 'rd' ? 'held ' + (held.length > 1 ? 'by ' + owner(h) + ' ' : '') + 'since '
        : h.r.kind === 'rd' ? owner(h) + ' reads since ' : 'nothing is committed, ' + owner(h) + ' writes since ', link(h.n)));
      by.set(t, held.map(owner));
      dd.append('WAITING', held.length ? ' for ' + by.get(t).join(' and ') : '', ', since ', link(n), why);
      waits.push({label: t, want: e.wants});
    } else if (unit) dd.append('OPEN since ', link(unit));
    else idle.push(t);
    if (dd.firstChild) rows.append(make('dt', '', t), dd);
  }
  if (idle.length) rows.append(make('dt', 'over', 'IDLE'), make('dd', 'over clip', idle.join(', ')));
  if (over.firstChild) rows.append(make('dt', 'over', 'ENDED'), over);
  tasks.replaceChildren(make('h2', '', make('span', '', 'TASKS'), tag('past', 'clock ', state.get('clock') || '0')), rows,
    ...deadlocks(by).map(r => make('p', 'dead', 'deadlock: ' + r.map((t, i) => t + ' waits for ' + r[(i + 1) % r.length]).join(', '))));
};
const showEvent = () => {
  if (!at) { say.replaceChildren('Before the first task: what was defined and loaded.'); return; }
  const e = event[at], from = e.from, code = text((from ? event[from] : e).el, 'code'), ends = e.ends.slice();
  const box = make('div', e.kinds.join(' '), make('em', '', 'line ' + e.line + (from ? ', after which line ' + event[from].line + (e.is('wok') ? ' resumes' : ' times out') : '')));
  if (code) box.append(make('code', 'clip', code));
  const notes = make('div', 'clip');
  box.append(make('samp', 'clip', e.text), notes);
  for (const p of e.el.children) if (p.tagName === 'P') {
    const copy = p.cloneNode(true);
    if (p.className === 'com' || p.className === 'bak') copy.append(', begun at ', link(ends.shift()));
    notes.append(copy);
  }
  say.replaceChildren(box);
};
const wide = matchMedia('(min-width:861px)');
const scrollTo = (e, frame) => {
  const r = e.getBoundingClientRect(), f = frame.getBoundingClientRect();
  if (r.bottom > f.bottom) frame.scrollTop += r.bottom - f.bottom + 40;
  if (r.top < f.top) frame.scrollTop += r.top - f.top - 40;
};
let timer = 0;
const go = to => {
  const n = Math.max(0, Math.min(last, to)), touch = i => {
    if (!i) return;
    event[i].touches.forEach(c => changed.add(c));
    event[i].el.classList.toggle('now', i === n);
    event[i].li.classList.toggle('at', i === n);
    i === n ? event[i].el.setAttribute('aria-current', 'step') : event[i].el.removeAttribute('aria-current');
  };
  touch(at);
  while (at < n) forward(++at);
  while (at > n) back(at--);
  touch(at);
  const before = waits;
  waits = [];
  showTasks();
  for (const w of before.concat(waits)) changed.add(w.want.cell || w.want.box);
  for (const x of changed) if (x.box) { showCell(x); changed.add(x.box); }
  for (const x of changed) if (!x.box) showHead(x);
  changed.clear();
  showEvent();
  list.className = at ? '' : 'start';
  slider.value = at;
  slider.setAttribute('aria-valuetext', at ? 'step ' + at + ' of ' + last + ', line ' + event[at].line : 'start');
  where.replaceChildren(make('span', '', (at ? 'line ' + event[at].line + ', ' : '') + 'step '), at + ' of ' + last);
  for (const b of bar.querySelectorAll('button')) b.disabled = b.value < 0 ? !at : at === last;
  // A row that this step touches is scrolled to: within its box, and at the side of the run also there.
  const rows = Array.from(look.querySelectorAll('.box .new:not([hidden])')).reverse();
  for (const e of rows) scrollTo(e, e.parentNode);
  if (wide.matches) {
    if (at) event[at].el.scrollIntoView({block: 'nearest'});
    if (rows.length) scrollTo(rows[rows.length - 1], look);
  }
  clearTimeout(timer);
  timer = setTimeout(() => { if (at || location.hash) history.replaceState(null, '', '#s' + at); }, 200);
};
const act = v => {
  let n = at + Math.sign(v);
  if (Math.abs(v) === 2) while (n > 0 && n < last && !event[n].turns) n += Math.sign(v);
  go(Math.abs(v) === 3 ? v < 0 ? 0 : last : n);
};

// ---- the lanes beside the lines: a bar for each unit, a mark for each event, an arrow for each wait

const shapes = {att: 'M-5 0a5 5 0 1 0 10 0a5 5 0 1 0-10 0z', ans: 'M-4 0a4 4 0 1 0 8 0a4 4 0 1 0-8 0z', con: 'M0-5l5 9h-10z',
  ref: 'M-5 0a5 5 0 1 0 10 0a5 5 0 1 0-10 0zM-3 3l6-6', wai: 'M-5-6h10l-10 12h10z', wok: 'M-3-5l7 5l-7 5z', end: 'M-6 0h12',
  abe: 'M-6 0a6 6 0 1 0 12 0a6 6 0 1 0-12 0zM-2-2l4 4m0-4l-4 4', stay: 'M0-9l9 9l-9 9l-9-9z'};
const lanes = labels.slice(0, 16), laneOf = {}, running = new Map(), asking = {};
lanes.forEach((t, x) => { laneOf[t] = x; });
const placed = (e, x, w) => { e.style.setProperty('--x', x); if (w) e.style.setProperty('--w', w); return e; };
const drawBars = (row, n) => running.forEach((u, x) =>
  row.append(placed(make('i', 'lane ' + u.how + (u.first === n ? ' top' : '') + (u.last === n ? ' end' : '')), x)));
let n = 0;
for (const li of list.children) {
  if (!li.querySelector('samp')) drawBars(li, 0);
  for (const el of li.querySelectorAll('div')) {
    const e = event[++n], x = laneOf[e.label], y = e.is('wai') ? laneOf[e.text.split(' ')[2]] : undefined;
    if (e.is('wok') || e.is('abe') && !el.querySelector('code')) e.from = asking[e.label];
    if (e.is('wai')) asking[e.label] = n;
    if (units[n] && x !== undefined) running.set(x, units[n]);
    drawBars(el, n);
    running.forEach((u, i) => { if (u.last === n) running.delete(i); });
    if (x === undefined || e.is('clk', 'dwn', 'flt')) continue;
    if (y !== undefined) el.append(placed(make('i', x < y ? 'lane to' : 'lane to left'), Math.min(x, y), Math.abs(x - y)));
    const svg = placed(drawn('svg', 'lane', {viewBox: '-10 -10 20 20', 'aria-hidden': 'true'}), x);
    const kind = ['abe', 'wok', 'wai', 'con', 'ref', 'end', 'att'].find(k => e.is(k)) || 'ans';
    if (e.ops.some(o => o.stays)) svg.append(drawn('path', 'stay', {d: shapes.stay}));
    svg.append(drawn('path', kind, {d: shapes[kind]}));
    el.append(svg);
  }
}

// ---- the page

const kinds = ['file', 'ts', 'td', 'enq'];
for (const b of Array.from(boxes.values()).sort((a, b) => kinds.indexOf(a.kind) - kinds.indexOf(b.kind) || compare(hex(a.name), hex(b.name)))) {
  const all = Array.from(b.cells.values()).sort((x, y) => compare(x.sort, y.sort)), still = all.filter(c => c.still).length;
  for (const c of all) c.el = make('li');
  b.head = make('h2');
  b.el = make('section', 'box', b.head, make('ul', '', ...all.map(c => c.el)));
  if (still > 12) {
    const more = make('button', 'more', 'show ' + still + ' records that no line touches');
    more.onclick = () => { b.el.classList.remove('quiet'); more.remove(); };
    b.el.classList.add('quiet');
    b.el.append(more);
  }
  part('boxes').append(b.el);
  changed.add(b);
}
for (const c of cells) changed.add(c);
const run = make('section'), heads = make('div'), end = doc.querySelector('body>pre'), ticks = {tw: '', tk: '', tb: ''};
const longest = Math.max(0, ...lanes.map(t => t.length)), flat = longest < 3 && lanes.length < 7, strip = bar.querySelector('#way svg');
run.id = 'run';
run.setAttribute('aria-label', 'The run, line by line');
run.style.setProperty('--n', lanes.length);
heads.id = 'heads';
heads.className = flat ? 'flat' : '';
heads.setAttribute('aria-hidden', 'true');
heads.style.setProperty('--heads', (flat ? 18 : 10 + 7 * longest) + 'px');
lanes.forEach((t, x) => heads.append(placed(make('b', 'lane', t), x)));
list.before(bar, make('main', '', look, run));
run.append(heads, list);
if (end) run.append(end);
event.forEach((e, i) => {
  if (!i) return;
  e.el.removeAttribute('id');
  if (!e.turns) return;
  // A wait hangs down, a resumption stands up, a backout or an abend is as high as both.
  if (e.is('wai')) ticks.tw += 'M' + i + ' 0v.5';
  else if (e.is('wok') && !e.backs) ticks.tk += 'M' + i + ' .5v.5';
  else ticks.tb += 'M' + i + ' 0v1';
});
strip.setAttribute('viewBox', '0 0 ' + Math.max(1, last) + ' 1');
for (const k in ticks) strip.append(drawn('path', k, {d: ticks[k]}));
slider.max = last;
slider.oninput = () => go(+slider.value);
bar.onclick = x => { const b = x.target.closest('button'); if (b) act(+b.value); };
list.onclick = x => {
  const el = x.target.closest('ol div');
  if (!el || String(getSelection())) return;
  go(event.findIndex(e => e && e.el === el));
  if (!wide.matches) window.scrollTo(0, 0);
};
doc.onkeydown = x => {
  const v = {ArrowLeft: -1, ArrowRight: 1, n: 2, p: -2}[x.key];
  if (!v || x.ctrlKey || x.altKey || x.metaKey || x.target === slider && Math.abs(v) === 1) return;
  act(v);
  x.preventDefault();
};
const aim = () => { const m = /^#s(\d+)$/.exec(location.hash); return m ? +m[1] : 0; };
onhashchange = () => go(aim());
doc.documentElement.classList.add('js');
go(aim());
if (!wide.matches) window.scrollTo(0, 0);
slider.focus({preventScroll: true});
})();
