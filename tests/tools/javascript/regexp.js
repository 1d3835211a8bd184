'use strict';
// A heartbeat that waits while a regular expression goes back again and again.
const { took, started } = require('./said.js');
const text = 'a'.repeat(22) + '!';

function validate() {
  const done = took('validate');
  /^(a+)+$/.test(text);
  done();
}

function heartbeat() {
  beat.called();
}

setTimeout(validate, 20);
const beat = started('heartbeat', 40, (delay) => setTimeout(heartbeat, delay));
