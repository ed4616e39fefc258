"""Relays between processes of a cluster, which cut and delay the bytes that go through them. Each has a port of its
own.

A link that is cut holds all bytes until it is healed, because a network that loses packets does the same: they are sent
again. A delayed link passes each piece on after a while. If a link speaks HTTP, `rewrite` may change requests and
answers.
"""
import asyncio
import contextlib
import threading

HOST = "127.0.0.1"
PIECE = 1 << 16


class Link:
    """The bytes that go to one port through this relay."""

    def __init__(self, name, port):
        self.name, self.target, self.port = name, port, 0
        self.delay, self.healed, self.rewrite = 0.0, asyncio.Event(), None
        self.healed.set()
        # Each way may be cut alone: the bytes to the port, and the bytes from there.
        self.ways = asyncio.Event(), asyncio.Event()
        for it in self.ways:
            it.set()

    async def carry(self, reader, writer, way):
        """Gives on each piece in its order until one end closes."""
        pieces = asyncio.Queue(64)
        loop = asyncio.get_running_loop()

        async def give():
            while piece := await pieces.get():
                due, data = piece
                await asyncio.sleep(max(0, due - loop.time()))
                await self.healed.wait()
                await way.wait()
                writer.write(data)
                await writer.drain()

        giving = asyncio.ensure_future(give())
        try:
            while data := await reader.read(PIECE):
                await pieces.put((loop.time() + self.delay, data))
            await pieces.put(None)
            await giving
        finally:
            giving.cancel()

    async def connected(self, reader, writer):
        """Carries both ways between the caller and the port behind."""
        # At the end of the relays all carrying is cancelled, and nobody must be told of that.
        with contextlib.suppress(OSError, asyncio.IncompleteReadError, ValueError, asyncio.CancelledError):
            await self.healed.wait()
            far_reader, far_writer = await asyncio.open_connection(HOST, self.target)
            with contextlib.closing(far_writer):
                if self.rewrite:
                    await self.rewrite(reader, writer, far_reader, far_writer)
                else:
                    forth, back = self.ways
                    both = (reader, far_writer, forth), (far_reader, writer, back)
                    ways = [asyncio.ensure_future(self.carry(*it)) for it in both]
                    _, left = await asyncio.wait(ways, return_when=asyncio.FIRST_COMPLETED)
                    for it in left:
                        it.cancel()
                    await asyncio.gather(*ways, return_exceptions=True)
        writer.close()


class Relays:
    """All links of a run, on a thread of their own. `rewriting` returns a link's rewrite by its name, or none."""

    def __init__(self, rewriting=lambda name: None):
        self.loop, self.links, self.rewriting = asyncio.new_event_loop(), {}, rewriting
        self.thread = threading.Thread(target=self.loop.run_forever, daemon=True)

    def __enter__(self):
        self.thread.start()
        return self

    def __exit__(self, *_):
        self.called(self.close())
        self.loop.call_soon_threadsafe(self.loop.stop)
        self.thread.join()

    async def close(self):
        """Ends all that is carried; that it is cancelled is no error."""
        self.loop.set_exception_handler(lambda *_: None)
        others = [it for it in asyncio.all_tasks() if it is not asyncio.current_task()]
        for it in others:
            it.cancel()
        await asyncio.gather(*others, return_exceptions=True)

    def called(self, work):
        return asyncio.run_coroutine_threadsafe(work, self.loop).result()

    def before(self, name, port):
        """The port of a link of this name to that port."""
        return self.called(self.begin(name, port))

    async def begin(self, name, port):
        link = Link(name, port)
        link.rewrite = self.rewriting(name)
        server = await asyncio.start_server(link.connected, HOST, 0)
        link.port = server.sockets[0].getsockname()[1]
        self.links[name] = link
        return link.port

    def cut(self, name, way=None):
        """Cuts a link, or only the bytes to its port (0) or from there (1)."""
        link = self.links[name]
        self.loop.call_soon_threadsafe((link.healed if way is None else link.ways[way]).clear)

    def delay(self, name, seconds):
        self.links[name].delay = seconds

    def heal(self):
        """Makes all links carry again, at once."""
        for it in self.links.values():
            it.delay = 0.0
            for cut in (it.healed, *it.ways):
                self.loop.call_soon_threadsafe(cut.set)
