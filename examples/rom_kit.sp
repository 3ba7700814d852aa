.SUBCKT demo_bitcell bl br wl vdd gnd
.ENDS demo_bitcell
.SUBCKT demo_precharge bl br en_bar vdd gnd
.ENDS demo_precharge
.SUBCKT demo_mux bl br blo bro sel vdd gnd
.ENDS demo_mux
.SUBCKT demo_tie bl br vdd gnd
.ENDS demo_tie
.SUBCKT demo_sense bl br dout en vdd gnd
.ENDS demo_sense
.SUBCKT demo_write din bl br en vdd gnd
.ENDS demo_write
.SUBCKT demo_rownand2 a b z vdd gnd
.ENDS demo_rownand2
.SUBCKT demo_rownand3 a b c z vdd gnd
.ENDS demo_rownand3
.SUBCKT demo_driver a en z vdd gnd
.ENDS demo_driver
.SUBCKT demo_nand2 a b z vdd gnd
.ENDS demo_nand2
.SUBCKT demo_nand3 a b c z vdd gnd
.ENDS demo_nand3
.SUBCKT demo_inv a z vdd gnd
.ENDS demo_inv
.SUBCKT demo_dff d clk q vdd gnd
.ENDS demo_dff
.SUBCKT demo_delay a z vdd gnd
.ENDS demo_delay
.SUBCKT demo_rom0 bl br wl vdd gnd
.ENDS demo_rom0
.SUBCKT demo_rom1 bl br wl vdd gnd
.ENDS demo_rom1
