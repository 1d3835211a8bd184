'use strict';
// A loop three functions deep, in a method that is bound.
const { took, started } = require('./said.js');

function score(n) {
  let sum = 0;
  for (let at = 0; at < n; at++) {
    sum += Math.sqrt(at) * Math.sin(at);
  }
  return sum;
}

function rank() {
  const done = took('score');
  const found = [1, 2, 3].map((it) => score(it * 1e6));
  done();
  return found;
}

class Board {
  refresh() {
    const done = took('refresh');
    this.rows = rank();
    done();
  }
}

function answer() {
  answered.called();
}

const board = new Board();
setTimeout(board.refresh.bind(board), 10);
const answered = started('answer', 12, (delay) => setTimeout(answer, delay));
