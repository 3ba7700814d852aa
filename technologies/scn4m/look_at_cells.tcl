# Reads the layout GDS under the process's published deck; for each of CELLS prints the count of errors and each broken rule, and extracts it into the folder OUT. Of its
# texts those are ports that are ports of its subcircuit in DECK.
cif istyle lambda=0.20(p)
drc off
drc euclidean on
gds read $env(GDS)
cd $env(OUT)
set file [open $env(DECK)]
set deck [read $file]
close $file
foreach cell $env(CELLS) {
  load $cell
  select top cell
  drc style drc(full)
  drc on
  drc check
  drc catchup
  puts "rules $cell [drc list count total]"
  foreach {rule boxes} [drc listall why] { puts "broken $cell: $rule: [llength $boxes] times: [lrange $boxes 0 2]" }
  drc off
  port makeall
  regexp -line "^\\.SUBCKT $cell (.*)$" $deck line wanted
  for {set i [port last]} {$i > 0} {incr i -1} {
    if {[lsearch -exact $wanted [port $i name]] < 0} {port $i remove}
  }
  extract all
  ext2spice lvs
  ext2spice subcircuit top on
  ext2spice -o $cell.drawn.spice $cell
}
quit -noprompt
