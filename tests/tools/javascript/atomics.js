'use strict';
// A heartbeat that waits while a value is waited for that nobody writes.
const { took, started } = require('./said.js');
const shared = new Int32Array(new SharedArrayBuffer(4));

function waitForValue() {
  const done = took('waitForValue');
  Atomics.wait(shared, 0, 0, 120);
  done();
}

function heartbeat() {
  beat.called();
}

setTimeout(waitForValue, 20);
const beat = started('heartbeat', 40, (delay) => setTimeout(heartbeat, delay));
