'use strict';
// A heartbeat that waits while a page is packed at once.
const zlib = require('zlib');
const { took, started } = require('./said.js');
const page = Buffer.alloc(2e7, 'some words of a page, ');

function pack() {
  const done = took('pack');
  zlib.gzipSync(page);
  done();
}

function heartbeat() {
  beat.called();
}

setTimeout(pack, 20);
const beat = started('heartbeat', 40, (delay) => setTimeout(heartbeat, delay));
