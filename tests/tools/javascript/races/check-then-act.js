'use strict';
// check, then act, over fs; the second one comes a while later
const fsp = require('fs').promises, os = require('os'), path = require('path');
const dir = path.join(os.tmpdir(), `check-then-act-${process.pid}-${Date.now()}`);
async function ensure() {
  try { await fsp.access(dir); } catch { await fsp.mkdir(dir); }
}
async function first() { await ensure(); }
async function second() { await new Promise((r) => setTimeout(r, 200)); await ensure(); }
Promise.all([first(), second()]).then(() => fsp.rmdir(dir)).then(() => console.log('ok'));
