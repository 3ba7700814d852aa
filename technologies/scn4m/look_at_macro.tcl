# Reads the layout GDS under the process's published deck; prints the count of errors of the structure TOP and each broken rule. With OUT it
# extracts TOP, flattened, into that folder, and with CAP also with all capacitances. The texts of all other structures are dropped first, so that
# the texts of TOP alone are ports.
cif istyle lambda=0.20(p)
drc off
drc euclidean on
gds read $env(GDS)
load $env(TOP)
select top cell
drc style drc(full)
drc on
drc check
drc catchup
puts "rules $env(TOP) [drc list count total]"
foreach {rule boxes} [drc listall why] { puts "broken $env(TOP): $rule: [llength $boxes] times: [lrange $boxes 0 2]" }
drc off
if {![info exists env(OUT)]} { quit -noprompt }
cd $env(OUT)
foreach cell [cellname list allcells] {
  if {$cell eq $env(TOP) || $cell eq "(UNNAMED)"} continue
  load $cell
  select top cell
  erase labels
}
load $env(TOP)
select top cell
flatten flat
load flat
box -1000 -1000 1000000 1000000
select area labels
port makeall
puts "ports [port last]"
extract all
ext2spice lvs
ext2spice subcircuit top on
ext2spice -o $env(TOP).drawn.spice flat
# Once more with all capacitances, those between wires too.
if {[info exists env(CAP)]} {
  ext2spice default
  ext2spice format ngspice
  ext2spice subcircuit top on
  ext2spice hierarchy off
  ext2spice cthresh 0.5
  ext2spice rthresh infinite
  ext2spice scale off
  ext2spice -o $env(TOP).coupled.spice flat
}
quit -noprompt
