" Vim syntax of tcpsim's scenarios (docs/FORMATS.md).
if exists('b:current_syntax')
  finish
endif
syntax case match
syntax match tcpsimComment /#.*$/
syntax match tcpsimStatement /^ *\(sim\|node\|link\|flow\|route\|lose\)\>/
syntax match tcpsimKind /\(^ *node \+[a-z][a-z0-9]* \+\)\@<=\(sender\|receiver\|router\)\>/
syntax match tcpsimQueue /\(^ *link \+\([a-z0-9]\+ \+\)\{5}\)\@<=\(droptail\|codel\)\>/
syntax match tcpsimVariant /\(^ *flow \+\([a-z0-9]\+ \+\)\{8}\)\@<=\(new\)\?reno \+iw\(3\|10\)\( \|#\|$\)\@=/
" A leading zero is refused (E4), and so is a byte that is not printable (E1).
syntax match tcpsimNumber / \@<=\(0\|[1-9][0-9]*\)\( \|$\)\@=/
syntax match tcpsimError / \@<=0[0-9]\+/
syntax match tcpsimError /[^ -~]/ containedin=tcpsimComment
highlight default link tcpsimComment Comment
highlight default link tcpsimStatement Statement
highlight default link tcpsimKind Type
highlight default link tcpsimQueue Type
highlight default link tcpsimVariant Type
highlight default link tcpsimNumber Number
highlight default link tcpsimError Error
let b:current_syntax = 'tcpsim'
