" A scenario of tcpsim: a .txt file that has a `sim` statement among its first twenty lines.
autocmd BufRead,BufNewFile *.tcpsim setfiletype tcpsim
autocmd BufRead *.txt if match(getline(1, 20), '^ *sim \+[0-9]\+ *\(#.*\)\?$') >= 0 | setlocal filetype=tcpsim | endif
