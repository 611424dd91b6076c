# A memory of 8 words of 4 bits: it is written at the rising edge, and read without a clock.
from myhdl import *

DEPTH = 8


@block
def memory(read, address, write, enable, clock):
    words = [Signal(intbv(0)[4:]) for i in range(DEPTH)]

    @always(clock.posedge)
    def store():
        if enable:
            words[address].next = write

    @always_comb
    def load():
        read.next = words[address]

    return store, load


@block
def bench():
    clock = Signal(bool(0))
    enable = Signal(bool(0))
    address = Signal(intbv(0, min=0, max=DEPTH))
    write = Signal(intbv(0)[4:])
    read = Signal(intbv(0)[4:])
    squares = (0, 1, 4, 9, 0, 9, 4, 1)
    m = memory(read, address, write, enable, clock)

    @always(delay(1))
    def tick():
        clock.next = not clock

    @instance
    def drive():
        enable.next = 1
        for i in range(DEPTH):
            address.next = i
            write.next = squares[i]
            yield clock.negedge
        enable.next = 0
        for i in downrange(DEPTH):
            address.next = i
            yield clock.negedge
            assert read == squares[i]
            print("word", i, "is", int(read))
        raise StopSimulation()

    return m, tick, drive


b = bench()
b.run_sim(100)
