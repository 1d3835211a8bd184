'use strict';
// A heartbeat that waits for a property that looks like a value, and computes each time.
const { took, started } = require('./said.js');
const rows = Array.from({ length: 1500 }, (_, at) => ({ at, parts: Array.from({ length: 400 }, (_, part) => (at * part) % 97) }));
const view = rows.map((row) => new Proxy(row, { get: (held, name) => (name === 'total' ? total(held) : held[name]) }));

function total(row) {
  return row.parts.reduce((sum, part) => sum + Math.sqrt(part), 0);
}

function rank() {
  const done = took('rank');
  view.sort((a, b) => b.total - a.total);
  done();
}

function heartbeat() {
  beat.called();
}

setTimeout(rank, 20);
const beat = started('heartbeat', 30, (delay) => setTimeout(heartbeat, delay));
