'use strict';
// A heartbeat that waits for a sort whose comparator is dear.
const { took, started } = require('./said.js');
const names = Array.from({ length: 600 }, (_, at) => `Name ${(at * 7919) % 601} of Ünïcode`);

function byName(a, b) {
  return a.localeCompare(b, 'de', { sensitivity: 'base', numeric: true });
}

function order() {
  const done = took('order');
  names.sort(byName);
  done();
}

function heartbeat() {
  beat.called();
}

setTimeout(order, 20);
const beat = started('heartbeat', 30, (delay) => setTimeout(heartbeat, delay));
