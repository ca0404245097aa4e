/* A link before which a CoDel queue stands, for harnesses that try a queue of other programs. Standard input has a line
 * `RATE TARGET INTERVAL MAXPACKET` (bit/s, ns, ns, bytes) and then a line `TIME BYTES` for each packet that is offered, in the
 * order of time (ns). Standard output gets a line `TIME COUNT` for each packet that CoDel drops. Where a packet comes as the
 * link becomes free, the link takes first. */
#include <stdint.h>
#include <stdio.h>

typedef unsigned long long ns_t;

/* How long a packet takes on the link: its bits at the rate, rounded up to ns. */
static ns_t time_of(ns_t bytes, ns_t rate) { return (bytes * 8 * 1000000000ULL + rate - 1) / rate; }
