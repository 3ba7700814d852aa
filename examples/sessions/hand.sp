a buffer of two inverters, as a simulator takes it
.include "hand_cells.inc"
Xbuffer in out buffer
Vdd vdd! 0 1.8
.end
