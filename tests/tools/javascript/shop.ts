// A heartbeat that waits for a function, in TypeScript: what node runs is shop.js, and what a person wrote is this file.
declare const require: (name: string) => any, setTimeout: (callback: () => void, ms: number) => unknown;
const { took, started } = require('./said.js');

interface Order {
  id: number;
  price: number;
}

class Shop {
  constructor(private readonly orders: Order[]) {}

  total(): number {
    let sum = 0;
    for (let round = 0; round < 40; round++) {
      for (const { id, price } of this.orders) sum += Math.sqrt(price * round + id);
    }
    return sum;
  }
}

const shop = new Shop(Array.from({ length: 60000 }, (_, id) => ({ id, price: id % 97 })));

function close(): void {
  const done = took('close');
  shop.total();
  done();
}

function heartbeat(): void {
  beat.called();
}

setTimeout(close, 20);
const beat = started('heartbeat', 30, (delay: number) => setTimeout(heartbeat, delay));
