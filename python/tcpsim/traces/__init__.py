"""What a trace says: the fates of packets, curves, figures by time, and each packet's life.

`reader` goes through a trace line by line, and finds what became of each packet. `curves` keeps all of a run's curves, `series`
its figures by time. `lives` has the life of a packet, which `walk` follows through its queues and links: the base of stalls,
segments that are followed, and critical paths. `own_queues` reads the drops and takes of a queue that is a Python class.
"""
