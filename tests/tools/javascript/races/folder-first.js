'use strict';
// Two async fs calls whose order is assumed: the folder is made long before the config (4 requests) is read.
const fs = require('fs'), os = require('os'), path = require('path');
const dir = path.join(os.tmpdir(), `folder-first-${process.pid}-${Date.now()}`);
let ready = false;
fs.mkdir(dir, (err) => { if (err) throw err; ready = true; });
fs.readFile(__filename, 'utf8', (err, text) => {
  if (err) throw err;
  if (!ready) throw new Error('RACE: config before folder');
  fs.rmdir(dir, () => console.log('ok', text.length > 10));
});
