"""What the nodes of two_flows_over_a_router.txt keep, as a session's commands show it: at the beginning, and where the first two
packets of flow 1 are under way over link 3. Flow 0 goes from node 1 to 3, and flow 1 from node 0 to 4, over router 2: so the
router's links 2 and 3 have data, and 6 and 7 acknowledgements, of which its trace shows which is whose.
"""

COMMANDS = '''\
state
step 12
'''

# Senders wait for their starts, receivers for byte 0, and CoDel is on the router's first link. Link 3 has sent two packets,
# which come to node 4 in their turn: the link's number and 1 is the source of their keys, and the count of its packets the number.
ANSWERS = '''\
at 0
node 0 sender 1 una=0 nxt=0 high=0 cwnd=4000 ssthresh=64000 dups=0 lt=0 fr=0 timing=- srtt=- rttvar=0 rto=1000000000 resent=0
node 1 sender 0 una=0 nxt=0 high=0 cwnd=4000 ssthresh=64000 dups=0 lt=0 fr=0 timing=- srtt=- rttvar=0 rto=1000000000 resent=0
node 2 router
node 3 receiver 0 next=0 held=-
node 4 receiver 1 next=0 held=-
link 0 offered=0 sent=0 queue=-
link 1 offered=0 sent=0 queue=-
link 2 offered=0 sent=0 queue=- first=- next=0 count=0 last=0 drop=0
link 3 offered=0 sent=0 queue=-
link 4 offered=0 sent=0 queue=-
link 5 offered=0 sent=0 queue=-
link 6 offered=0 sent=0 queue=-
link 7 offered=0 sent=0 queue=-
event 5 1 0 0 start 0
event 7 0 0 0 start 1
at 12
node 0 sender 1 una=0 nxt=3000 high=3000 cwnd=4000 ssthresh=64000 dups=0 lt=0 fr=0 timing=1000@7 srtt=- rttvar=0 rto=1000000000 resent=0
node 1 sender 0 una=0 nxt=3000 high=3000 cwnd=4000 ssthresh=64000 dups=0 lt=0 fr=0 timing=1000@5 srtt=- rttvar=0 rto=1000000000 resent=0
node 2 router
node 3 receiver 0 next=0 held=-
node 4 receiver 1 next=0 held=-
link 0 offered=3 sent=2 queue=-
link 1 offered=3 sent=3 queue=-
link 2 offered=2 sent=2 queue=- first=- next=0 count=0 last=0 drop=0
link 3 offered=2 sent=2 queue=-
link 4 offered=0 sent=0 queue=-
link 5 offered=0 sent=0 queue=-
link 6 offered=0 sent=0 queue=-
link 7 offered=0 sent=0 queue=-
event 3120005 1 0 3 free 1
event 4080005 3 3 1 data 0 0
event 4080007 4 4 1 data 1 0
event 4120005 2 0 3 free 2
event 4120005 2 2 3 data 0 2000
event 4120007 2 0 4 free 3
event 5120005 3 3 2 data 0 1000
event 5120007 4 4 2 data 1 2000
event 1000000005 1 0 1 rto 0
event 1000000007 0 0 1 rto 1
'''
