" Vim syntax file
" Language: the SIMSCRIPT II profile that simscript compiles (docs/LANGUAGE.md)
" The reserved words are those of the lexer: editors/words compares them.

if exists("b:current_syntax")
  finish
endif

syntax case ignore
" a period is part of a word
syntax iskeyword @,48-57,.

syntax keyword simscriptSection PREAMBLE MAIN ROUTINE EVENT END
syntax keyword simscriptDeclaration ACCUMULATE BELONG BREAK DEFINE ENTITIES HAS INCLUDE MAY NORMALLY NOTICE
syntax keyword simscriptDeclaration NOTICES ORDER OWNS PERMANENT PRIORITY RANKED SAVING SYSTEM TALLY TEMPORARY
syntax keyword simscriptDeclaration TIES
syntax keyword simscriptType ALPHA FIFO HIGH INTEGER LIFO LOW MAXIMUM MEAN MINIMUM MODE NUMBER REAL SET SETS
syntax keyword simscriptType SUM VARIABLE VARIABLES
syntax keyword simscriptStatement ADD CALL CALLED CANCEL CAUSE CREATE DESTROY FILE GIVEN GIVING LET LINE LINES
syntax keyword simscriptStatement OUTPUT READ REMOVE RESET RETURN SCHEDULE SIMULATION SKIP START STOP SUBTRACT
syntax keyword simscriptStatement TOTALS YIELDING
syntax keyword simscriptPicture FOLLOWS THIS THUS
syntax keyword simscriptChoice ALWAYS CASE ELSE FIND FOUND IF NONE OTHERWISE REGARDLESS
syntax keyword simscriptLoop ALL DO EACH EVERY FOR LOOP REPEAT REVERSE UNLESS UNTIL WHEN WHILE WITH
syntax keyword simscriptOperator AND EMPTY ENDED EQ EQUAL EQUALS GE GREATER GT IS LE LESS LT NE NOT OR THAN
syntax keyword simscriptSmall A AFTER AN AS AT BEFORE BY DAY DAYS DATA FIRST FROM IN LAST LIKE NOW OF THE THEN
syntax keyword simscriptSmall TO UNIT UNITS
syntax keyword simscriptFunction ABS.F DIV.F MAX.F MIN.F MOD.F TIME.A TIME.V
" PRINT is no keyword, since it begins a region.
syntax match simscriptStatement /\<PRINT\>/

syntax match simscriptNumber /\<\d\+\>/
syntax match simscriptText /"[^"]*"/
syntax match simscriptOpenText /"[^"]*$/
syntax match simscriptComment /''.\{-}\%(''\|$\)/

" After THUS, FOLLOWS or THIS at the end of a PRINT come as many lines as it says. They are taken as they are.
syntax match simscriptLines1 /^.*\n/ contained
for s:lines in range(1, 30)
  execute 'syntax region simscriptPrint matchgroup=simscriptStatement start=/\<PRINT\_s\+' . s:lines . '\_s\+LINES\=\>/'
    \ . ' matchgroup=simscriptPicture end=/\<\%(THUS\|FOLLOWS\|THIS\)\>.*\n/ contains=TOP,simscriptPicture'
    \ . ' nextgroup=simscriptLines' . s:lines . ' skipnl'
  execute 'syntax match simscriptLines' . (s:lines + 1) . ' /^.*\n/ contained nextgroup=simscriptLines' . s:lines . ' skipnl'
  execute 'highlight default link simscriptLines' . s:lines . ' Special'
endfor
unlet s:lines

highlight default link simscriptSection PreProc
highlight default link simscriptDeclaration Structure
highlight default link simscriptType Type
highlight default link simscriptStatement Statement
highlight default link simscriptPicture Statement
highlight default link simscriptChoice Conditional
highlight default link simscriptLoop Repeat
highlight default link simscriptOperator Operator
highlight default link simscriptSmall Keyword
highlight default link simscriptFunction Function
highlight default link simscriptNumber Number
highlight default link simscriptText String
highlight default link simscriptOpenText Error
highlight default link simscriptComment Comment

" A picture may look like anything, so only the lines before it say what it is.
syntax sync fromstart

let b:current_syntax = "simscript"
