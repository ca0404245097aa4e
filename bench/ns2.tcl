# The first flow of measure.py for ns-2 (http://www.isi.edu/nsnam/ns): ns ns2.tcl SEGMENTS [trace].
# Its Reno has rules of its own; with `trace` it writes three lines a packet and link. Of the headers
# that ns-2 knows a packet has only those that are used here, which is how it runs fastest.
remove-all-packet-headers
add-packet-header IP TCP Flags
set ns [new Simulator]
if {[lindex $argv 1] eq "trace"} {
    $ns trace-all [open /dev/null w]
}
set s [$ns node]
set r [$ns node]
$ns simplex-link $s $r 100Mb 1ms DropTail
$ns simplex-link $r $s 100Mb 1ms DropTail
$ns queue-limit $s $r 20
$ns queue-limit $r $s 20
set tcp [new Agent/TCP/Reno]
$tcp set window_ 44
$tcp set packetSize_ 1460
$tcp set windowInit_ 3
$ns attach-agent $s $tcp
set sink [new Agent/TCPSink]
$ns attach-agent $r $sink
$ns connect $tcp $sink
set ftp [new Application/FTP]
$ftp attach-agent $tcp
$ns at 0.0 "$ftp produce [lindex $argv 0]"
proc finish {} { puts "ns-[ns-version]"; exit 0 }
$ns at 1000.0 "finish"
$ns run
