"""A weighing device over Modbus, by pymodbus' own server. For tests/adapters.py.

    modbus_device.py tcp PORT | rtu PATH

Input registers: 0 and 1 the weight in tenths of a gram, 2 the strobe, 3 the state, 4 how many packs
were turned aside. Each line of standard input is `REGISTER WORD..` and sets registers; `ok` is said
for it. It serves once the first line was heeded, so that nobody reads registers of before. For each
write of coil 0 `coil 0|1 SECONDS` is said, with the monotonic clock; of holding register 40
`advice WORD`.

It ends where its server can't begin. So it runs the server itself: `StartAsyncTcpServer` runs it in
a task that nobody looks at, and lets no port be used again for 60 s behind a connection that the
server's end closed first, as one that is killed in mid-answer does."""

import asyncio
import logging
import sys
import time

from pymodbus.datastore import ModbusSequentialDataBlock, ModbusServerContext, ModbusSlaveContext
from pymodbus.server.async_io import ModbusSerialServer, ModbusTcpServer
from pymodbus.transaction import ModbusRtuFramer

SIZE = 100


class Told(ModbusSequentialDataBlock):
    """Coils or registers whose writes are said."""

    def __init__(self, word):
        super().__init__(0, [0] * SIZE)
        self.word = word

    def setValues(self, address, values):
        super().setValues(address, values)
        values = values if isinstance(values, list) else [values]
        if self.word == "coil":
            print(f"coil {int(values[0])} {time.monotonic()}", flush=True)
        elif address == 40:
            print(f"advice {values[0]}", flush=True)


async def lines():
    """The lines of standard input."""
    reader = asyncio.StreamReader()
    await asyncio.get_running_loop().connect_read_pipe(
        lambda: asyncio.StreamReaderProtocol(reader), sys.stdin
    )
    async for line in reader:
        yield line


async def serve_tcp(context, where, group):
    """Serves at a port. A server that fails ends all."""
    server = ModbusTcpServer(context, address=("127.0.0.1", int(where)), allow_reuse_address=True)
    group.create_task(server.serve_forever())
    await server.serving


async def serve_rtu(context, where, _):
    """Serves at a serial line."""
    server = ModbusSerialServer(
        context, framer=ModbusRtuFramer, port=where, baudrate=115200, parity="N"
    )
    await server.start()


async def main(kind, where):
    logging.getLogger("pymodbus").setLevel(logging.CRITICAL)
    block = ModbusSequentialDataBlock(0, [0] * SIZE)
    store = ModbusSlaveContext(ir=block, co=Told("coil"), hr=Told("advice"), zero_mode=True)
    context = ModbusServerContext(slaves=store, single=True)
    begin = serve_tcp if kind == "tcp" else serve_rtu
    is_serving = False
    async with asyncio.TaskGroup() as group:
        async for line in lines():
            register, *words = map(int, line.split())
            block.setValues(register, words)
            if not is_serving:
                await begin(context, where, group)
                is_serving = True
            print("ok", flush=True)


asyncio.run(main(*sys.argv[1:]))
