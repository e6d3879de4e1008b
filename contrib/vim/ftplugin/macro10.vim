" :make assembles and runs the source, and jumps to its wrong lines.
setlocal commentstring=;%s tabstop=8 noexpandtab
setlocal makeprg=ten\ --steps\ 1\ %
setlocal errorformat=%f:%l:%c:\ %trror:\ %m,%f:%l:\ %m,%-G%.%#
