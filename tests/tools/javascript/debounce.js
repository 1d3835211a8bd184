'use strict';
// A timer that never comes: whoever types starts it again, each time before it is due, and at the end it is cleared.
let count = 0, timer;

function search() {
  console.log('found');
}

function type() {
  clearTimeout(timer);
  timer = setTimeout(search, 5000);
  if (++count === 4) leave();
}

function leave() {
  clearInterval(typing);
  clearTimeout(timer);
}

const typing = setInterval(type, 20);
