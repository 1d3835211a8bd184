'use strict';
// A timer that nothing waits for.
const { started } = require('./said.js');

function cleanup() {
  console.log('never printed');
}

function work() {
  works.called();
}

setTimeout(cleanup, 300).unref();
const works = started('work', 20, (delay) => setTimeout(work, delay));
