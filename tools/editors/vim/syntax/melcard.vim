" Highlights drafts and decks of melcard. tools/dev/make words writes the words.
if exists("b:current_syntax")
  finish
endif

syntax case match
syntax iskeyword @,48-57,_
" words, written by tools/dev/make words
syntax keyword melcardInstruction NOP SETSW SETLA SETSWLA PUSHZ PUSHB PUSHW POPN POPB POPW PRIM BYTE LOAD STORE LOADI STOREI LOADA INDEX SETB CMPB ADDB SUBB SETW CMPW ADDW SUBW CLEARN TESTN INCN DECN NOTN CMPN ADDN SUBN ANDN ORN XORN
syntax keyword melcardFlow EXIT EXITSW EXITLA EXITSWLA BRANCH JUMP CALL RET RETI RETO RETIO
syntax keyword melcardRegister SB ST DB LB DT PB PT
syntax keyword melcardCondition EQ LT LE GT GE NE ALL
syntax keyword melcardDeclaration STATIC SESSION PUBLIC CONST DATA
syntax keyword melcardField CLA INS P1 P2 P3 Lc Le La SW
syntax match melcardStatement /^\s*\%(format\|power\|unit\|app\|load\|select\|delete\|dump\|apdu\|budget\|cut\|fail\|poke\|end\)\ze\%(\s\|$\)/
" end of words
syntax match melcardLabel /^\s*[A-Za-z_][A-Za-z0-9_]*\ze:/
syntax match melcardNumber /\<0x[0-9A-Fa-f]\+\>\|\<-\?\d\+\>/
syntax match melcardComment /;.*$/ contains=@Spell
syntax match melcardComment /^\s*#.*$/ contains=@Spell
syntax match melcardExpectation /^\s*#>.*$/
syntax match melcardRule /^\s*#[@!].*$/

highlight default link melcardInstruction Identifier
highlight default link melcardFlow Statement
highlight default link melcardRegister Special
highlight default link melcardCondition Constant
highlight default link melcardDeclaration Type
highlight default link melcardField Special
highlight default link melcardStatement Keyword
highlight default link melcardLabel Function
highlight default link melcardNumber Number
highlight default link melcardComment Comment
highlight default link melcardExpectation String
highlight default link melcardRule PreProc

let b:current_syntax = "melcard"
