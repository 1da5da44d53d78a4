" Vim syntax file: SHIM
if exists('b:current_syntax')
  finish
endif

syntax case match

syntax match shimSign "[=+\-*/%&|^~!<>]"
syntax match shimDelimiter "[(){},;]"
syntax match shimName "\<[A-Za-z_][A-Za-z0-9_]*\>"
syntax match shimFunction "\<[A-Za-z_][A-Za-z0-9_]*\>\ze\_s*("
syntax match shimNumber "\<\d\+\>"
syntax match shimNumber "\<0[xX]\x\+\>"

syntax keyword shimType void bool int int8 int16 int32 uint8 uint16 uint32
syntax keyword shimStream istream ostream
syntax keyword shimBoolean true false
syntax keyword shimConditional if else
syntax keyword shimRepeat while for
syntax keyword shimMeeting par next put get
syntax keyword shimException try catch throw throws

" In a text of version 2, whose header comes before all but comments, int64 is a type, too.
let s:top = substitute(join(getline(1, 200), "\n"), '//[^\n]*\|/\*\_.\{-}\*/', ' ', 'g')
if s:top =~# '^\_s*shim\_s\+\(0*2\|0[xX]0*2\)\_s*;'
  syntax match shimHeader "\<shim\>\ze\_s\+\(0*2\|0[xX]0*2\)\_s*;"
  syntax keyword shimType int64
endif
unlet s:top

syntax keyword shimTodo TODO FIXME XXX contained
syntax match shimComment "//.*" contains=shimTodo,@Spell
syntax region shimComment start="/\*" end="\*/" contains=shimTodo,@Spell
syntax sync minlines=200

highlight default link shimSign Operator
highlight default link shimDelimiter Delimiter
highlight default link shimName Normal
highlight default link shimFunction Function
highlight default link shimNumber Number
highlight default link shimType Type
highlight default link shimStream StorageClass
highlight default link shimBoolean Boolean
highlight default link shimConditional Conditional
highlight default link shimRepeat Repeat
highlight default link shimMeeting Statement
highlight default link shimException Exception
highlight default link shimHeader PreProc
highlight default link shimComment Comment
highlight default link shimTodo Todo

let b:current_syntax = 'shim'
