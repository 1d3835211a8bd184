'use strict';
// A heartbeat that waits while a file is read line by line: all lines of a piece of the file come at once.
const fs = require('fs'), os = require('os'), path = require('path'), readline = require('readline');
const { took, started } = require('./said.js'), file = path.join(os.tmpdir(), `rows.${process.pid}`);
const counts = new Map();

function count(line) {
  for (const word of line.split(' ')) counts.set(word, (counts.get(word) ?? 0) + 1);
}

async function readAll() {
  const done = took('reading');
  for await (const line of readline.createInterface({ input: fs.createReadStream(file, { highWaterMark: 1 << 22 }) })) count(line);
  done();
  clearInterval(beat.timer);
}

function heartbeat() {
  beat.called();
}

fs.writeFileSync(file, 'the quick brown fox jumps over the lazy dog\n'.repeat(25000));
process.on('exit', () => fs.unlinkSync(file));
setTimeout(readAll, 20);
const beat = started('heartbeat', 20, (delay) => setInterval(heartbeat, delay));
