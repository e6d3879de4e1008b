" :make runs the script, and jumps to the line that is refused.
setlocal commentstring=;%s
let s:command = expand('%:e') ==# 'run' ? 'run' : 'queue'
let &l:makeprg = 'lockmon ' . s:command . ' < % 2>&1 >/dev/null | sed "s,^lockmon: line ,%:,"'
setlocal errorformat=%f:%l:\ column\ %c:\ %m,%f:%l:\ %m,%f:%l\\,\ %m
