" MACRO-10 as macro reads it; lockmon asm and ten read a subset.
if exists('b:current_syntax') | finish | endif
syntax case ignore
syntax match macro10Label /^\s*[A-Z.$%][A-Z0-9.$%]*:/
syntax match macro10Number /\^[DOB]\d\+\|\<\d\+\(B\d\+\)\?\>\.\?/
syntax keyword macro10Form ASCII ASCIZ SIXBIT BLOCK LOC RADIX TITLE SUBTTL SEARCH END EXP XWD IOWD POINT
syntax keyword macro10Form OCT DEC BYTE RADIX50 SQUOZE RELOC PHASE DEPHASE LIT VAR OPDEF SYN PURGE COMMENT REMARK PAGE
syntax keyword macro10Form INTERN ENTRY SUPPRESS ASUPPRESS NOSYM MLON MLOFF PRINTX LIST XLIST LALL SALL XALL
syntax keyword macro10Macro DEFINE REPEAT IRP IRPC STOPI IF1 IF2 IFE IFN IFG IFGE IFL IFLE IFDEF IFNDEF IFIDN IFDIF IFB IFNB
syntax match macro10Form /\.\(CREF\|XCREF\|DIRECTIVE\)\>/
syntax match macro10Label /^\s*[A-Z.$%][A-Z0-9.$%]*\s*==\?/
syntax match macro10Character /"[^"]\{1,5}"\|\(^\|[ \t,(<]\)\@<='[^']\{1,6}'/
syntax match macro10Call /\<\(ENQ\|DEQ\|ENQC\|PIINI\|PISYS\|DEBRK\|DATRD\|DATWR\|MONRT\)\./
syntax keyword macro10Call EXIT CORE LOGOUT RESET SLEEP MSTIME PJOB OUTSTR OUTCHR INCHRW INCHWL INCHRS INCHSL SKPINC SKPINL CLRBFI CLRBFO HALT
syntax match macro10Comment /;.*$/
syntax match macro10Text /\(\<\(ASCII\|ASCIZ\|SIXBIT\)\s*\)\@<=\([^ \ta-z]\).\{-}\3/
highlight default link macro10Label Label
highlight default link macro10Number Number
highlight default link macro10Form PreProc
highlight default link macro10Macro PreCondit
highlight default link macro10Character Character
highlight default link macro10Call Function
highlight default link macro10Text String
highlight default link macro10Comment Comment
let b:current_syntax = 'macro10'
