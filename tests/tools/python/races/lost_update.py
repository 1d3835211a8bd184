"""Two deposits, the second one a while behind the first: each reads the balance, waits, and writes it."""

import asyncio

from jobs import job, run

balance = 0


async def deposit(amount):
    global balance
    before = balance
    await job(0.001)
    balance = before + amount


async def later():
    await asyncio.sleep(0.2)
    await deposit(20)


async def main():
    await asyncio.gather(deposit(10), later())
    assert balance == 30, f"RACE: {balance}"
    print("balance", balance)


run(main)
