# A producer and a consumer that agree by valid and ready: a word is taken at a rising edge at which both hold.
from myhdl import *


@block
def producer(data, valid, ready, clock):
    @always(clock.posedge)
    def offer():
        if not valid:
            valid.next = 1
        elif ready:
            data.next = data + 3

    return offer


@block
def consumer(total, data, valid, ready, clock):
    @always(clock.posedge)
    def take():
        ready.next = not ready
        if valid and ready:
            total.next = total + data
            print(now(), "taken", int(data))

    return take


@block
def bench():
    clock = Signal(bool(0))
    valid = Signal(bool(0))
    ready = Signal(bool(0))
    data = Signal(intbv(1)[8:])
    total = Signal(intbv(0)[16:])
    p = producer(data, valid, ready, clock)
    c = consumer(total, data, valid, ready, clock)

    @always(delay(10))
    def tick():
        clock.next = not clock

    @instance
    def watch():
        while True:
            yield total
            print(now(), "total", int(total))

    return instances()


b = bench()
b.run_sim(150)
