'use strict';
// A file that is asked for while the pool is full of hashes.
const { pbkdf2 } = require('crypto');
const fs = require('fs');
const { took } = require('./said.js');

function hash(password) {
  pbkdf2(password, 'salt', 200000, 64, 'sha512', took(password));
}

function readSettings() {
  fs.stat(__filename, took('settings'));
}

for (let at = 0; at < 8; at++) hash(`secret_${at}`);
setTimeout(readSettings, 10);
