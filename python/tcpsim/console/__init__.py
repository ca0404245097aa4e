"""What tcpsim-debug puts before the debugger's prompt: `session` keeps where the program is, and starts it again there;
`times` answers `time F`, by what `ahead` reads beside it;
`completion` finds from help what can be typed; `keyboard` edits lines, `screen` shows answers."""
