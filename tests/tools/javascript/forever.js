'use strict';
// A function that never ends.
let count = 0;

function spin() {
  for (;;) count++;
}

setTimeout(spin, 20);
