"""A switch in user space: what comes in at one port goes out to another one some time later, in both directions.
usage: python3 bench/links.py SECONDS LISTEN:TARGET.."""

import asyncio
import sys
from functools import partial
from typing import List, Tuple

PART = 1 << 16


async def carry(reader: asyncio.StreamReader, writer: asyncio.StreamWriter, delay: float) -> None:
    """Hands on what comes, each part so many seconds later."""
    loop = asyncio.get_running_loop()
    waiting: "asyncio.Queue[Tuple[float, bytes]]" = asyncio.Queue()

    async def send() -> None:
        while True:
            at, data = await waiting.get()
            await asyncio.sleep(max(0.0, at - loop.time()))
            if not data:
                break
            writer.write(data)
        writer.close()

    sending = asyncio.ensure_future(send())
    try:
        while True:
            data = await reader.read(PART)
            waiting.put_nowait((loop.time() + delay, data))
            if not data:
                break
        await sending
    except OSError:
        sending.cancel()
        writer.close()


async def joined(target: int, delay: float, reader: asyncio.StreamReader, writer: asyncio.StreamWriter) -> None:
    """One connection, carried to its target."""
    try:
        far_reader, far_writer = await asyncio.open_connection("127.0.0.1", target)
    except OSError:
        writer.close()
        return
    await asyncio.gather(carry(reader, far_writer, delay), carry(far_reader, writer, delay))


async def switch(delay: float, links: List[Tuple[int, int]]) -> None:
    servers = [await asyncio.start_server(partial(joined, target, delay), "127.0.0.1", listen) for listen, target in links]
    await asyncio.gather(*(server.serve_forever() for server in servers))


if __name__ == "__main__":
    asyncio.run(switch(float(sys.argv[1]), [(int(one), int(other)) for one, other in (word.split(":") for word in sys.argv[2:])]))
