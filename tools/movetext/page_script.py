"""The style and the script of the page on which one walks through a module."""

STYLE = """
body { padding-bottom: 3rem; }
nav { display: flex; flex-wrap: wrap; gap: .25rem .9rem; margin: .25rem 0 1rem; } nav a, a { color: var(--accent); }
.told { border-left: 4px solid var(--accent); background: var(--panel); padding: .5rem .75rem; margin: .5rem 0; overflow-x: auto; }
.told.bad { border-color: var(--stop); } .told pre { margin: .25rem 0 0; white-space: pre-wrap; overflow-wrap: anywhere; }
.both { display: grid; grid-template-columns: minmax(0, 1fr) minmax(20rem, 27rem); gap: 1.25rem; align-items: start; }
.wide pre { margin: .4rem .75rem; }
.fn { position: relative; margin: .9rem 0 1.25rem; } .fn h3 { font-size: 13px; font-weight: 600; margin: 0 0 .35rem; }
.rows { position: relative; outline-offset: 2px; }
.flow { position: absolute; left: 0; top: 0; pointer-events: none; overflow: visible; }
.row { height: 22px; line-height: 22px; white-space: pre; padding: 0 .75rem 0 0; scroll-margin: 40vh 0 40vh 30rem; }
.row.head { color: var(--quiet); border-top: 1px solid var(--line); } .row.dead { opacity: .6; }
.row.at { cursor: pointer; } .row.at:hover { background: var(--line); }
.row.bad { background: var(--bad); } .row.why { color: var(--stop); }
.row.here, .row.here:hover { background: var(--here); box-shadow: inset 3px 0 var(--accent); }
.num { display: inline-block; width: 3.2em; text-align: right; padding-right: .9em; color: var(--quiet); user-select: none; }
.panel { position: sticky; top: .75rem; max-height: calc(100vh - 1.5rem); overflow-y: auto; border: 1px solid var(--line);
  border-radius: 8px; background: var(--panel); padding: .6rem .8rem; }
.panel h2 { margin: 0 0 .4rem; font-size: 14px; } .panel h4 { margin: .7rem 0 .2rem; font-size: 13px; color: var(--quiet); }
.panel table { border-collapse: collapse; width: 100%; } .panel td { padding: 0 .6rem 0 0; vertical-align: top; overflow-wrap: anywhere; }
.panel td.is { color: var(--quiet); white-space: nowrap; } .buttons { display: flex; gap: .4rem; margin: .2rem 0; }
.graph { overflow-x: auto; margin: .3rem 0; } .graph svg { display: block; }
button { font: inherit; font-size: 14px; padding: .25rem .7rem; border: 1px solid var(--line); border-radius: 6px;
  background: var(--ground); color: var(--text); cursor: pointer; }
button:disabled { opacity: .45; cursor: default; }
.arc { fill: none; stroke: var(--accent); stroke-width: 1.5; } .arc.back { stroke: var(--stop); } .arc.next { stroke: var(--quiet); }
.arc.lit { stroke-width: 3; } .tip { fill: var(--accent); } .tip.back { fill: var(--stop); } .tip.next { fill: var(--quiet); }
.node { fill: var(--ground); stroke: var(--quiet); } .node.mut { stroke-width: 2.5; stroke: var(--text); }
.edge { stroke: var(--quiet); fill: none; } .graph text { fill: var(--text); font-size: 12px; }
@media (max-width: 60rem) {
  .both { display: block; }
  .panel { position: fixed; left: 0; right: 0; bottom: 0; top: auto; max-height: 44vh; border-radius: 10px 10px 0 0; z-index: 2;
    box-shadow: 0 -2px 12px rgba(0, 0, 0, .25); }
  body { padding-bottom: 50vh; }
}
"""

SCRIPT = r"""
'use strict';
(function () {
  const data = JSON.parse(document.getElementById('data').textContent);
  const rows = Array.from(document.querySelectorAll('.row.at'));
  const panel = document.getElementById('panel');
  const STATES = ['Unavailable', 'Available', 'Maybe'], KINDS = data.kinds, TEMP = KINDS.length - 1, SLOT = data.slot;
  const SVG = 'http://www.w3.org/2000/svg';
  let here = -1;

  function make(name, text, kind) {
    const one = document.createElement(name);
    if (text !== undefined) one.textContent = text;
    if (kind) one.className = kind;
    return one;
  }
  function draw(name, attributes, text) {
    const one = document.createElementNS(SVG, name);
    for (const key in attributes) one.setAttribute(key, attributes[key]);
    if (text !== undefined) one.textContent = text;
    return one;
  }
  function short(text) { return text.length > 34 ? text.slice(0, 32) + '..' : text; }

  function nodeText(module, fn, before, kind, index) {
    if (kind === TEMP) return 'Temp ' + index + (before[0] && before[0][index] !== undefined ? ': ' + fn.types[before[0][index]] : '');
    if (kind === data.glob) return 'Glob ' + (module.structs[index] || '#' + index);
    const local = fn.locals[index];
    return KINDS[kind] + ' ' + (local ? local[0] + (kind === SLOT ? ': ' + local[1] : '') : index);
  }
  function typeOf(fn, before, kind, index) {
    if (kind === TEMP) return before[0] ? fn.types[before[0][index]] || '' : '';
    return kind === SLOT && fn.locals[index] ? fn.locals[index][1] : '';
  }

  /* The references that are there, and what edges name: as [kind, index]. */
  function nodesOf(fn, before, edges) {
    const found = new Map();
    function add(kind, index) { found.set(kind + ' ' + index, [kind, index]); }
    for (const one of edges) { add(one[0], one[1]); add(one[2], one[3]); }
    (before[0] || []).forEach(function (type, at) { if (fn.types[type].startsWith('&')) add(TEMP, at); });
    Array.from(before[1] || '').forEach(function (state, at) {
      if (state !== '0' && fn.locals[at] && fn.locals[at][1].startsWith('&')) add(SLOT, at);
    });
    return found;
  }

  /* Each node on a line below all that it borrows from. */
  function levelsOf(nodes, edges) {
    const level = new Map(Array.from(nodes.keys(), function (key) { return [key, 0]; }));
    for (let round = 0, moved = true; moved && round < nodes.size; round++) {
      moved = false;
      for (const one of edges) {
        const least = level.get(one[0] + ' ' + one[1]) + 1, to = one[2] + ' ' + one[3];
        if (level.get(to) < least && least <= nodes.size) { level.set(to, least); moved = true; }
      }
    }
    return level;
  }

  function graph(module, fn, before, edges) {
    const nodes = nodesOf(fn, before, edges);
    if (!nodes.size) return null;
    const level = levelsOf(nodes, edges), lines = [], place = new Map(), HIGH = 26, GAP = 44;
    for (const [key, node] of nodes) (lines[level.get(key)] = lines[level.get(key)] || []).push([key, node]);
    let width = 0;
    const filled = lines.filter(Boolean);
    filled.forEach(function (line, row) {
      let left = 6;
      for (const [key, node] of line) {
        const text = short(nodeText(module, fn, before, node[0], node[1])), wide = 7.4 * text.length + 16;
        place.set(key, {x: left, y: 6 + row * (HIGH + GAP), wide: wide, text: text, node: node});
        left += wide + 14;
      }
      width = Math.max(width, left);
    });
    const high = filled.length * (HIGH + GAP) - GAP + 12;
    const svg = draw('svg', {width: width, height: high, role: 'img', 'aria-label': 'the borrow graph'});
    const defs = draw('defs', {}), tip = draw('marker', {id: 'tip', viewBox: '0 0 8 8', refX: 7, refY: 4, markerWidth: 8, markerHeight: 8,
                                                          orient: 'auto'});
    tip.appendChild(draw('path', {d: 'M0,0 L8,4 L0,8 z', fill: 'currentColor'}));
    defs.appendChild(tip);
    svg.appendChild(defs);
    const seen = new Map();
    let right = width;
    for (const one of edges) {
      const a = one[0] + ' ' + one[1], b = one[2] + ' ' + one[3], from = place.get(a), to = place.get(b);
      const pair = a + ' ' + b, nth = seen.get(pair) || 0;
      seen.set(pair, nth + 1);
      if (level.get(b) === level.get(a) + 1 && nth < 3) {
        const x1 = from.x + 28 + 9 * nth, y1 = from.y + HIGH, x2 = to.x + 28 + 9 * nth;
        svg.appendChild(draw('line', {x1: x1, y1: y1, x2: x2, y2: to.y - 1, class: 'edge', 'marker-end': 'url(#tip)'}));
        if (one[4]) svg.appendChild(draw('text', {x: (x1 + x2) / 2 + 5, y: (y1 + to.y) / 2 + 4 + 12 * nth}, short(one[4])));
      } else {
        /* Round what stands between. */
        const x1 = from.x + from.wide, y1 = from.y + HIGH / 2, x2 = to.x + to.wide, y2 = to.y + HIGH / 2, out = width + 18;
        svg.appendChild(draw('path', {d: 'M' + x1 + ',' + y1 + ' C' + out + ',' + y1 + ' ' + out + ',' + y2 + ' ' + (x2 + 1) + ',' + y2,
                                      class: 'edge', 'marker-end': 'url(#tip)'}));
        const text = short(one[4] || '');
        if (text) svg.appendChild(draw('text', {x: out - 8, y: (y1 + y2) / 2 + 4 + 12 * nth}, text));
        right = Math.max(right, out + 7.4 * text.length);
      }
    }
    svg.setAttribute('width', right + 6);
    for (const it of place.values()) {
      const isMutable = typeOf(fn, before, it.node[0], it.node[1]).startsWith('&mut');
      const round = it.node[0] === TEMP || it.node[0] === SLOT ? 12 : 0;
      svg.appendChild(draw('rect', {x: it.x, y: it.y, width: it.wide, height: HIGH, rx: round, class: 'node' + (isMutable ? ' mut' : '')}));
      svg.appendChild(draw('text', {x: it.x + 8, y: it.y + 17}, it.text));
    }
    return svg;
  }

  function part(title, rows, none) {
    panel.appendChild(make('h4', title));
    if (!rows.length) { panel.appendChild(make('div', none, 'code quiet')); return; }
    const table = make('table', undefined, 'code');
    for (const row of rows) {
      const line = make('tr');
      row.forEach(function (text, at) { line.appendChild(make('td', text, at ? 'is' : '')); });
      table.appendChild(line);
    }
    panel.appendChild(table);
  }

  function button(text, name, to) {
    const one = make('button', text);
    one.setAttribute('aria-label', name);
    one.disabled = to < 0 || to >= rows.length;
    one.addEventListener('click', function () { go(to); });
    return one;
  }

  function targetOf(row) {
    const fn = data.modules[row.dataset.m].functions[row.dataset.f], to = fn.targets[row.dataset.i];
    if (to === undefined) return -1;
    return rows.findIndex(function (one) { return one.id === 'm' + row.dataset.m + 'f' + row.dataset.f + 'i' + to; });
  }

  function show(row) {
    const module = data.modules[row.dataset.m], fn = module.functions[row.dataset.f], at = Number(row.dataset.i);
    const before = fn.before[at];
    panel.textContent = '';
    panel.appendChild(make('h2', fn.name + ', before instruction ' + at));
    const buttons = make('div', undefined, 'buttons');
    buttons.appendChild(button('\u2191', 'the instruction before', here - 1));
    buttons.appendChild(button('\u2193', 'the next instruction', here + 1));
    if (fn.targets[at] !== undefined) buttons.appendChild(button('to its target', 'the target', targetOf(row)));
    panel.appendChild(buttons);
    for (const text of fn.wrong[at] || []) panel.appendChild(make('div', text, 'stop'));
    if (before[0] === null) part('Stack', [], 'not known: ' + (fn.why || 'something before it is wrong'));
    else part('Stack, the top first', before[0].map(function (type, place) { return [fn.types[type], 'Temp ' + place]; }).reverse(), 'empty');
    if (before[1] === null) part('Locals', [], 'not known: ' + (fn.why || 'no control comes here, or there are no least states'));
    else part('Locals', fn.locals.map(function (one, place) { return [one[0] + ': ' + one[1], STATES[before[1][place]]]; }), 'none');
    panel.appendChild(make('h4', 'Borrow graph'));
    if (before[2] === null) {
      panel.appendChild(make('div', 'not known: ' + (fn.why || 'no control comes here, or there are no least states'), 'code quiet'));
      return;
    }
    const edges = before[2].map(function (one) { return fn.edges[one]; });
    const svg = graph(module, fn, before, edges);
    if (svg) { const box = make('div', undefined, 'graph'); box.appendChild(svg); panel.appendChild(box); }
    if (!before[3]) panel.appendChild(make('div', 'no edges', 'code quiet'));
    if (before[3] > edges.length) panel.appendChild(make('div', 'and ' + (before[3] - edges.length) + ' more edges', 'code quiet'));
  }

  function light(row, isOn) {
    const flow = row.closest('.rows').querySelectorAll('[data-from="' + row.dataset.i + '"]');
    flow.forEach(function (one) { one.classList.toggle('lit', isOn); });
  }

  function go(to, isQuiet) {
    if (to < 0 || to >= rows.length) return;
    if (here >= 0) { rows[here].classList.remove('here'); rows[here].removeAttribute('aria-current'); light(rows[here], false); }
    here = to;
    const row = rows[here];
    row.classList.add('here');
    row.setAttribute('aria-current', 'true');
    light(row, true);
    show(row);
    if (isQuiet) return;
    const box = row.getBoundingClientRect(), isNarrow = getComputedStyle(panel).position === 'fixed';
    const low = isNarrow ? panel.getBoundingClientRect().top : window.innerHeight;
    if (box.top < 30 || box.bottom > low - 30) window.scrollBy(0, box.top - low / 2);
    try { history.replaceState(null, '', '#' + row.id); } catch (error) { /* a page without a place of its own */ }
  }

  document.addEventListener('keydown', function (event) {
    if (event.altKey || event.ctrlKey || event.metaKey || event.shiftKey) return;
    const steps = {ArrowDown: 1, ArrowRight: 1, ArrowUp: -1, ArrowLeft: -1};
    if (event.key in steps) { go(here + steps[event.key]); event.preventDefault(); }
    else if (event.key === 'Enter' && document.activeElement.tagName !== 'BUTTON' && here >= 0) go(targetOf(rows[here]));
  });
  rows.forEach(function (row, at) { row.addEventListener('click', function () { go(at); }); });
  function find(id) { return rows.findIndex(function (one) { return one.id === id; }); }
  window.addEventListener('hashchange', function () { const at = find(location.hash.slice(1)); if (at >= 0) go(at); });
  if (rows.length) {
    const asked = find(location.hash.slice(1)), stop = find(data.stop);
    go(asked >= 0 ? asked : stop >= 0 ? stop : 0, asked < 0 && stop < 0);
  } else panel.hidden = true;
})();
"""
