# One flow over one link for ns-2 (http://www.isi.edu/nsnam/ns), set as docs/VALIDATION.md says:
# ns one_flow.tcl KIND RATE DELAY CAPACITY MSS SEGMENTS WINDOW INITIAL_WINDOW DELACK END OVERHEAD OUT [LOST ..]
# KIND is Reno or Newreno; RATE bit/s, DELAY, DELACK, END and OVERHEAD s, windows segments; LOST counts packets from 1.
# OUT gets the trace of what the sender offers, before it is lost, and each change of the timer's backoff.
remove-all-packet-headers
add-packet-header IP TCP Flags
lassign $argv kind rate delay capacity mss segments window initial delack end overhead out
set ns [new Simulator]
set file [open $out w]
set s [$ns node]
set r [$ns node]
$ns simplex-link $s $r $rate $delay DropTail
$ns simplex-link $r $s $rate $delay DropTail
$ns queue-limit $s $r [expr $capacity + 1]
$ns queue-limit $r $s 100000
set lost [lrange $argv 12 end]
if {[llength $lost]} {
    set em [new ErrorModel/List]
    set list {}
    foreach n $lost { lappend list [expr $n - 1] }
    $em droplist $list
    [$ns link $s $r] errormodule $em
    $em drop-target [new Agent/Null]
}
set sends [$ns create-trace Enque $file $s $r]
[$ns link $s $r] add-to-head $sends
set tcp [new Agent/TCP/$kind]
$tcp set window_ $window
$tcp set packetSize_ $mss
$tcp set windowInit_ $initial
$tcp set overhead_ $overhead
$tcp set minrto_ 1
$tcp set rtxcur_init_ 1
$tcp set tcpTick_ 0.000001
$tcp set syn_ false
$tcp set delay_growth_ false
$tcp set singledup_ 1
$tcp set bugFix_ [expr {$kind eq "Newreno"}]
$ns attach-agent $s $tcp
if {$delack > 0} {
    set sink [new Agent/TCPSink/DelAck]
    $sink set interval_ $delack
    $sink set SYN_immediate_ack_ false
} else {
    set sink [new Agent/TCPSink]
}
$ns attach-agent $r $sink
$ns connect $tcp $sink
$tcp attach-trace $file
$tcp trace backoff_
set ftp [new Application/FTP]
$ftp attach-agent $tcp
$ns at 0.0 "$ftp produce $segments"
$ns at $end "finish"
proc finish {} {
    global file
    close $file
    puts "ns-[ns-version]"
    exit 0
}
$ns run
