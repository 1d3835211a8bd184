'use strict';
// A heartbeat that waits while a folder of many files is walked at once, a call of the system for each file.
const fs = require('fs'), os = require('os'), path = require('path');
const { took, started } = require('./said.js'), folder = fs.mkdtempSync(path.join(os.tmpdir(), 'files.'));

function sizes() {
  const done = took('sizes');
  let sum = 0;
  for (let round = 0; round < 6; round++) {
    for (const name of fs.readdirSync(folder)) sum += fs.statSync(path.join(folder, name)).size;
  }
  done();
  return sum;
}

function heartbeat() {
  beat.called();
}

for (let at = 0; at < 1000; at++) fs.writeFileSync(path.join(folder, `file ${at}`), 'x');
process.on('exit', () => fs.rmSync(folder, { recursive: true }));
setTimeout(sizes, 20);
const beat = started('heartbeat', 30, (delay) => setTimeout(heartbeat, delay));
