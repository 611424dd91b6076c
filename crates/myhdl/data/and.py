from myhdl import *

@block
def gate(y, a, b):
    @always_comb
    def logic():
        y.next = a & b
    return logic
y = Signal(bool(0))
a = Signal(bool(0))
b = Signal(bool(0))
g = gate(y, a, b)
g.convert(hdl='Verilog')
