'use strict';
// A heartbeat that waits for a copy of all of a store.
const { took, started } = require('./said.js');
const store = new Map(Array.from({ length: 20000 }, (_, at) => [`key ${at}`, { at, tags: ['a', 'b'], when: new Date(at) }]));

function snapshot() {
  const done = took('snapshot');
  const copy = structuredClone(store);
  done();
  return copy;
}

function heartbeat() {
  beat.called();
}

setTimeout(snapshot, 20);
const beat = started('heartbeat', 30, (delay) => setTimeout(heartbeat, delay));
