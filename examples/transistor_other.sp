* The transistor stands between vdd and gnd here, as it isn't drawn.
.SUBCKT t a z vdd gnd
m1 vdd a gnd gnd n
.ENDS
