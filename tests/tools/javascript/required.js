'use strict';
// A heartbeat that waits for a module that is required where it is first used, and reckons a table as it is loaded.
const { took, started } = require('./said.js');

function convert() {
  const done = took('convert');
  const { rateOf } = require('./rates.js');
  done();
  return rateOf(7);
}

function heartbeat() {
  beat.called();
}

setTimeout(convert, 20);
const beat = started('heartbeat', 30, (delay) => setTimeout(heartbeat, delay));
