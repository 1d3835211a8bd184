"""What the programs of this folder have in common: uvloop, and jobs in threads."""

import asyncio
import time

import uvloop


def job(seconds, answer=None):
    """In a thread of the executor: takes so long, and answers that."""

    def work():
        time.sleep(seconds)
        return answer

    return asyncio.get_running_loop().run_in_executor(None, work)


def run(main):
    uvloop.install()
    asyncio.run(main())
