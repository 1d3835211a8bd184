'use strict';
// A write whose callback comes late: who reads the other end of it is slow.
const { spawn } = require('child_process');
const { took } = require('./said.js');
const rows = Buffer.alloc(1 << 20, 'a row of a report\n');

const reader = spawn('sh', ['-c', 'sleep 0.3; exec cat > /dev/null'], { stdio: ['pipe', 'ignore', 'ignore'] });
const done = took('writing');
reader.stdin.write(rows, function printed() {
  done();
  reader.stdin.end();
});
