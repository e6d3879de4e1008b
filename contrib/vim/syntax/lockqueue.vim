" Scripts of lockmon queue and lockmon run.
if exists('b:current_syntax') | finish | endif
syntax case match
syntax match lockqueueCommand /^\(ENQ\|DEQ\|STAT\|FREE\|SHOW\|WAITS\|QUIT\|LOGIN\|START\|CONTINUE\|KILL\|RESTART\|RUN\|STEP\|TICK\|TYPE\|TAKE\|EXAMINE\|DATA\)\>/
syntax match lockqueueNumber /\<\d\+\>/
syntax match lockqueueOption /\/[SGBLPJ]\(\d\+\(:\d\+\)\?\)\?/
syntax match lockqueueCode /#\o\+/
syntax match lockqueueComment /^;.*$/
syntax include @lockqueueSource syntax/macro10.vim
syntax region lockqueueSource matchgroup=PreProc start=/^ASSEMBLE .*$/ end=/^ENDASM$/ contains=@lockqueueSource
highlight default link lockqueueCommand Statement
highlight default link lockqueueNumber Number
highlight default link lockqueueOption Type
highlight default link lockqueueCode Constant
highlight default link lockqueueComment Comment
let b:current_syntax = 'lockqueue'
