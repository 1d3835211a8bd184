'use strict';
// A time limit that comes much later than its ms after its start: each piece that arrives puts it off.
const { took, started } = require('./said.js');
let count = 0, limits;

function limit() {
  limits.called();
  done();
}

function piece() {
  limits = started('limit', 3000, () => timer.refresh());
  if (++count === 4) clearInterval(pieces);
}

const done = took('waiting');
const timer = setTimeout(limit, 3000), pieces = setInterval(piece, 200);
