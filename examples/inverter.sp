* Two inverters in a row.
.SUBCKT inverter a z vdd gnd
mlower z a gnd gnd nmos
mupper z a vdd vdd pmos
.ENDS inverter

.SUBCKT top in out vdd gnd
xa in middle vdd gnd inverter
xb middle out vdd gnd inverter
.ENDS top
