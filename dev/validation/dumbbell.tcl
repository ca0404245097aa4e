# A dumbbell for ns-2, as tcpsim-net writes it and docs/VALIDATION.md sets it:
# ns dumbbell.tcl KIND RATE MIDDLE LAST CAPACITY MSS END OVERHEAD SEED TRIP START WINDOW [TRIP START WINDOW ..]
# KIND is Reno or Newreno; RATE bit/s, all times s, windows segments. Prints `flow BYTES TIMEOUTS` for each flow, and
# `link DROPS ARRIVALS MEAN-QUEUE` of the bottleneck, and the version.
remove-all-packet-headers
add-packet-header IP TCP Flags
lassign $argv kind rate middle last capacity mss end overhead seed
ns-random $seed
set ns [new Simulator]
set p [$ns node]
set q [$ns node]
$ns simplex-link $p $q $rate $middle DropTail
$ns simplex-link $q $p $rate $middle DropTail
$ns queue-limit $p $q [expr $capacity + 1]
$ns queue-limit $q $p 100000
set monitor [$ns monitor-queue $p $q ""]
set integral [$monitor get-pkts-integrator]
set number 0
foreach {trip start window} [lrange $argv 9 end] {
    set s [$ns node]
    set r [$ns node]
    $ns duplex-link $s $p 1Gb [expr $trip / 2 - $middle - $last] DropTail
    $ns duplex-link $q $r 1Gb $last DropTail
    $ns queue-limit $s $p 100000
    $ns queue-limit $q $r 100000
    set tcp($number) [new Agent/TCP/$kind]
    set t $tcp($number)
    $t set window_ $window
    $t set packetSize_ $mss
    $t set windowInit_ [expr {$mss > 2190 ? 2 : $mss > 1095 ? 3 : 4}]
    $t set overhead_ $overhead
    $t set minrto_ 1
    $t set rtxcur_init_ 1
    $t set tcpTick_ 0.000001
    $t set syn_ false
    $t set delay_growth_ false
    $t set singledup_ 1
    $t set bugFix_ [expr {$kind eq "Newreno"}]
    $ns attach-agent $s $t
    set sink [new Agent/TCPSink]
    $ns attach-agent $r $sink
    $ns connect $t $sink
    set ftp [new Application/FTP]
    $ftp attach-agent $t
    $ns at $start "$ftp start"
    incr number
}
$ns at $end "finish"
proc finish {} {
    global tcp number mss monitor integral end
    for {set n 0} {$n < $number} {incr n} {
        puts "flow [expr ([$tcp($n) set ack_] + 1) * $mss] [$tcp($n) set nrexmit_]"
    }
    puts "link [$monitor set pdrops_] [$monitor set parrivals_] [expr [$integral set sum_] / $end]"
    puts "ns-[ns-version]"
    exit 0
}
$ns run
