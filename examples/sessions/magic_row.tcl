# Draws inverters in a row and in an array in magic, and writes magic_row.gds, .ext and .spice beside this file:
#   cd examples/sessions && magic -dnull -noconsole -T scmos magic_row.tcl </dev/null
drc off
proc paint_box {layer x1 y1 x2 y2} { box values $x1 $y1 $x2 $y2; paint $layer }
proc name_at {text layer x y} { box values $x $y $x $y; label $text c $layer }

cellname create inv
load inv
paint_box nwell -3 21 19 49
paint_box ndiff 2 8 14 12
paint_box pdiff 2 26 14 34
paint_box poly 7 6 9 36
paint_box ndc 2 8 6 12
paint_box ndc 10 8 14 12
paint_box pdc 2 28 6 32
paint_box pdc 10 28 14 32
paint_box pc 3 18 7 22
paint_box m1 0 0 16 4
paint_box m1 0 40 16 44
paint_box psc 10 0 14 4
paint_box nsc 10 40 14 44
paint_box m1 2 0 6 12
paint_box m1 2 28 6 44
paint_box m1 10 8 14 32
name_at a m1 5 20
name_at z m1 12 20
name_at gnd m1 1 2
name_at vdd m1 1 42
port makeall

cellname create magic_row
load magic_row
foreach x {0 16 80} { box values $x 0 $x 0; getcell inv child 0 0 }
select cell inv_2
array 3 2
box values 80 0 120 60
array 3 2
box values 0 0 0 0
paint_box m1 13 18 23 22
select top cell
cif ostyle lambda=1.0(gen)
gds write magic_row.gds
extract all
ext2spice lvs
ext2spice -o magic_row.spice
quit -noprompt
