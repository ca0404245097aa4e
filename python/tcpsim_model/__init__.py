"""The independent model of tcpsim: the same commands and the same bytes, written from the rules alone."""
