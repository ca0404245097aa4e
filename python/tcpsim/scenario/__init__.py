"""Scenarios: `shapes` builds and writes nets, `units` reads rates, times, sizes and queues as words."""
