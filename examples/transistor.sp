* One transistor between z and gnd.
.SUBCKT t a z vdd gnd
m1 z a gnd gnd n w=1
.ENDS
