'use strict';
// A timer that waits while a large file is read.
const fs = require('fs');
const { took, started } = require('./said.js'), file = `large.${process.pid}`;

function readConfig() {
  const done = took('readConfig');
  const data = fs.readFileSync(file);
  done();
  return data;
}

function poll() {
  polled.called();
}

fs.writeFileSync(file, Buffer.alloc(2e8, 'x'));
process.on('exit', () => fs.unlinkSync(file));
setTimeout(readConfig, 20);
const polled = started('poll', 25, (delay) => setTimeout(poll, delay));
