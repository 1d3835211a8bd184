'use strict';
// (a part of required.js)
const table = [];
for (let at = 0; at < 150000; at++) table.push(Math.sin(at).toFixed(6));

exports.rateOf = (at) => Number(table[at]);
