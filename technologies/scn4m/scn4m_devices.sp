.SUBCKT bitcell bl br wl vdd gnd
M0 bl wl q gnd nfet W=0.8u L=0.4u
M1 q qb gnd gnd nfet W=1.6u L=0.4u
M2 gnd q qb gnd nfet W=1.6u L=0.4u
M3 qb wl br gnd nfet W=0.8u L=0.4u
M4 q qb vdd vdd pfet W=0.8u L=0.4u
M5 vdd q qb vdd pfet W=0.8u L=0.4u
.ENDS bitcell
.SUBCKT precharge bl br en_bar vdd gnd
M0 bl en_bar vdd vdd pfet W=1.6u L=0.4u
M1 vdd en_bar br vdd pfet W=1.6u L=0.4u
M2 br en_bar bl vdd pfet W=1.6u L=0.4u
.ENDS precharge
.SUBCKT mux bl br blo bro sel vdd gnd
M0 selb sel gnd gnd nfet W=0.8u L=0.4u
M1 bl sel blo gnd nfet W=1.6u L=0.4u
M2 bro sel br gnd nfet W=1.6u L=0.4u
M3 bl selb blo vdd pfet W=1.6u L=0.4u
M4 bro selb br vdd pfet W=1.6u L=0.4u
M5 selb sel vdd vdd pfet W=1.2u L=0.4u
.ENDS mux
.SUBCKT tie bl br vdd gnd
.ENDS tie
.SUBCKT sense bl br dout en vdd gnd
M0 sl en gnd gnd nfet W=0.8u L=2.4u
M1 gnd en sr gnd nfet W=0.8u L=2.4u
M2 t en gnd gnd nfet W=0.8u L=2.0u
M3 sl bl vdd gnd nfet W=1.6u L=0.4u
M4 vdd br sr gnd nfet W=1.6u L=0.4u
M5 l sl t gnd nfet W=2.4u L=0.4u
M6 t sr r gnd nfet W=2.4u L=0.4u
M7 vdd l l vdd pfet W=0.8u L=0.6u
M8 l r vdd vdd pfet W=0.8u L=0.8u
M9 vdd l r vdd pfet W=0.8u L=0.8u
M10 r r vdd vdd pfet W=0.8u L=0.6u
M11 nl l vdd vdd pfet W=1.6u L=0.4u
M12 vdd r nr vdd pfet W=1.6u L=0.4u
M13 up nl vdd vdd pfet W=0.8u L=0.4u
M14 vdd up dout vdd pfet W=1.6u L=0.4u
M15 nl l gnd gnd nfet W=0.8u L=0.4u
M16 gnd r nr gnd nfet W=0.8u L=0.4u
M17 up nl gnd gnd nfet W=0.8u L=0.4u
M18 gnd nr dout gnd nfet W=1.6u L=0.4u
.ENDS sense
.SUBCKT write din bl br en vdd gnd
M0 enb en gnd gnd nfet W=0.8u L=0.4u
M1 bl en db gnd nfet W=1.6u L=0.4u
M2 db dinb gnd gnd nfet W=1.6u L=0.4u
M3 gnd din dinb gnd nfet W=1.6u L=0.4u
M4 dinb en br gnd nfet W=1.6u L=0.4u
M5 bl enb db vdd pfet W=2.4u L=0.4u
M6 db dinb vdd vdd pfet W=2.4u L=0.4u
M7 vdd din dinb vdd pfet W=2.4u L=0.4u
M8 dinb enb br vdd pfet W=2.4u L=0.4u
M9 enb en vdd vdd pfet W=1.6u L=0.4u
.ENDS write
.SUBCKT rownand2 a b z vdd gnd
M0 gnd a mid gnd nfet W=1.6u L=0.4u
M1 mid b z gnd nfet W=1.6u L=0.4u
M2 vdd a z vdd pfet W=1.6u L=0.4u
M3 z b vdd vdd pfet W=1.6u L=0.4u
.ENDS rownand2
.SUBCKT rownand3 a b c z vdd gnd
M0 gnd a low gnd nfet W=1.6u L=0.4u
M1 low b high gnd nfet W=1.6u L=0.4u
M2 high c z gnd nfet W=1.6u L=0.4u
M3 vdd a z vdd pfet W=1.6u L=0.4u
M4 z b vdd vdd pfet W=1.6u L=0.4u
M5 vdd c z vdd pfet W=1.6u L=0.4u
.ENDS rownand3
.SUBCKT driver a en z vdd gnd
M0 gnd en eb gnd nfet W=1.6u L=0.4u
M1 gnd a z gnd nfet W=1.6u L=0.4u
M2 z eb gnd gnd nfet W=1.6u L=0.4u
M3 vdd en eb vdd pfet W=1.6u L=0.4u
M4 vdd a mid vdd pfet W=2.4u L=0.4u
M5 mid eb z vdd pfet W=2.4u L=0.4u
.ENDS driver
.SUBCKT nand2 a b z vdd gnd
M0 gnd a mid gnd nfet W=2.0u L=0.4u
M1 mid b z gnd nfet W=2.0u L=0.4u
M2 vdd a z vdd pfet W=2.0u L=0.4u
M3 z b vdd vdd pfet W=2.0u L=0.4u
.ENDS nand2
.SUBCKT nand3 a b c z vdd gnd
M0 gnd a low gnd nfet W=2.0u L=0.4u
M1 low b high gnd nfet W=2.0u L=0.4u
M2 high c z gnd nfet W=2.0u L=0.4u
M3 vdd a z vdd pfet W=2.0u L=0.4u
M4 z b vdd vdd pfet W=2.0u L=0.4u
M5 vdd c z vdd pfet W=2.0u L=0.4u
.ENDS nand3
.SUBCKT inv a z vdd gnd
M0 gnd a z gnd nfet W=1.6u L=0.4u
M1 vdd a z vdd pfet W=3.2u L=0.4u
.ENDS inv
.SUBCKT dff d clk q vdd gnd
M0 ckb clk gnd gnd nfet W=1.2u L=0.4u
M1 d ckb m1 gnd nfet W=1.2u L=0.4u
M2 m1 ck2 m1n gnd nfet W=1.2u L=0.4u
M3 m1n m2 gnd gnd nfet W=1.2u L=0.4u
M4 gnd m1 m2 gnd nfet W=1.2u L=0.4u
M5 ckb clk vdd vdd pfet W=1.6u L=0.4u
M6 vdd m2 m1p vdd pfet W=1.6u L=0.4u
M7 m1p ckb m1 vdd pfet W=1.6u L=0.4u
M8 m1 ck2 d vdd pfet W=1.6u L=0.4u
M9 vdd m1 m2 vdd pfet W=1.6u L=0.4u
M10 q s1 gnd gnd nfet W=1.2u L=0.4u
M11 gnd q s1n gnd nfet W=1.2u L=0.4u
M12 s1n ckb s1 gnd nfet W=1.2u L=0.4u
M13 s1 ck2 m2 gnd nfet W=1.2u L=0.4u
M14 gnd ckb ck2 gnd nfet W=1.2u L=0.4u
M15 q s1 vdd vdd pfet W=1.6u L=0.4u
M16 m2 ckb s1 vdd pfet W=1.6u L=0.4u
M17 s1 ck2 s1p vdd pfet W=1.6u L=0.4u
M18 s1p q vdd vdd pfet W=1.6u L=0.4u
M19 vdd ckb ck2 vdd pfet W=1.6u L=0.4u
.ENDS dff
.SUBCKT delay a z vdd gnd
M0 i1 a gnd gnd nfet W=0.8u L=4.0u
M1 gnd i1 i2 gnd nfet W=0.8u L=4.0u
M2 i1 a vdd vdd pfet W=0.8u L=4.0u
M3 vdd i1 i2 vdd pfet W=0.8u L=4.0u
M4 z i3 gnd gnd nfet W=1.2u L=0.4u
M5 gnd i2 i3 gnd nfet W=0.8u L=4.0u
M6 z i3 vdd vdd pfet W=1.6u L=0.4u
M7 vdd i2 i3 vdd pfet W=0.8u L=4.0u
.ENDS delay
.SUBCKT rom0 bl br wl vdd gnd
M0 bl wl gnd gnd nfet W=1.6u L=0.4u
.ENDS rom0
.SUBCKT rom1 bl br wl vdd gnd
M0 gnd wl br gnd nfet W=1.6u L=0.4u
.ENDS rom1
