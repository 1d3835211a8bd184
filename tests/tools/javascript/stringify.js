'use strict';
// A request whose answer is made of many objects, each with a toJSON of its own; its time limit waits for that.
const http = require('http');
const { took, started } = require('./said.js');

class Money {
  constructor(cents) {
    this.cents = cents;
  }
  toJSON() {
    return new Intl.NumberFormat('en', { style: 'currency', currency: 'EUR' }).format(this.cents / 100);
  }
}

const prices = Array.from({ length: 1000 }, (_, at) => new Money(at * 37));
let timeout;

function list(request, response) {
  const done = took('list');
  timeout = started('limit', 5, (delay) => setTimeout(limit, delay));
  response.end(JSON.stringify(prices));
  done();
}

function limit() {
  timeout.called();
}

const server = http.createServer(list).listen(0, '127.0.0.1', () => {
  http.get({ host: '127.0.0.1', port: server.address().port }, (response) => response.resume().on('end', () => server.close()));
});
