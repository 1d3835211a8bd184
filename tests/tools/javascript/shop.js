const { took, started } = require('./said.js');
class Shop {
    constructor(orders) {
        this.orders = orders;
    }
    total() {
        let sum = 0;
        for (let round = 0; round < 40; round++) {
            for (const { id, price } of this.orders)
                sum += Math.sqrt(price * round + id);
        }
        return sum;
    }
}
const shop = new Shop(Array.from({ length: 60000 }, (_, id) => ({ id, price: id % 97 })));
function close() {
    const done = took('close');
    shop.total();
    done();
}
function heartbeat() {
    beat.called();
}
setTimeout(close, 20);
const beat = started('heartbeat', 30, (delay) => setTimeout(heartbeat, delay));
//# sourceMappingURL=shop.js.map