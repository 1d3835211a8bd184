'use strict';
const http = require('http');

const orders = JSON.stringify(Array.from({ length: 500000 }, (_, id) => ({ id, price: (id * 37) % 1000, customer: id % 5000 })));

function report() {
  const spent = new Map();
  for (const { customer, price } of JSON.parse(orders)) spent.set(customer, (spent.get(customer) ?? 0) + price);
  return [...spent].sort(([, a], [, b]) => b - a).slice(0, 10);
}

const server = http.createServer((request, response) => {
  response.end(request.url === '/report' ? JSON.stringify(report()) : 'ok');
});

server.listen(0, '127.0.0.1', () => {
  const { port } = server.address();
  const asked = Date.now();
  setTimeout(function remind() {
    console.log(`reminded after ${Date.now() - asked} ms, in place of 100`);
  }, 100);
  http.get({ host: '127.0.0.1', port, path: '/report' }, (response) => {
    response.resume().on('end', () => server.close());
  });
});
