" Vim compiler file: SHIM. `:make` checks the file and goes to the place of a refusal; `:make!` stays where it is.
if exists('current_compiler')
  finish
endif
let current_compiler = 'shim'

" shim-see tells file, line and column; shim alone tells the line.
if executable('shim-see')
  CompilerSet makeprg=shim-see\ check\ --\ %:S
else
  CompilerSet makeprg=shim\ check\ --\ %:S
endif
CompilerSet errorformat=%f:%l:%c:\ %m,%f:%l:\ %m,refused\ %l\ %m
