"""What `import tcpsim` gives (docs/PYTHON.md): nets, runs, figures, traces, pictures, pages, and the debugger.

`scenarios` builds and reads nets, `errors` is what is raised, `engines` chooses the program or the model, `simulation` is a
run with all that can be asked of it, `results`, `events`, `series` and `times` are its figures, its trace, its curves and
where its flows' time went, `difference` where two runs part, `shown` what a notebook shows of it, `session` the debugger with
`answers`, its answers as objects, and `by_model` runs queues that are classes of Python's, of which `progress` says how far
they are.
"""
