" Sources of the LGP-30: label, operation, operands, comment.
if exists('b:current_syntax')
  finish
endif

" the words below are written by editors/grammars.mjs
let s:named = '\%(end\|-t\|a\|b\|c\|d\|e\|h\|i\|m\|n\|p\|r\|s\|t\|u\|y\|z\)'
let s:others = '\%(frac\|word\|int\|org\)'
" the words above are written by editors/grammars.mjs

syntax match lgp30Label /^[^ \t;][^ \t]*/ nextgroup=lgp30Named,lgp30Others skipwhite
execute 'syntax match lgp30Named /\%(^\|[ \t]\)\@1<=' . s:named . '\ze\%([ \t\r]\|$\)/ contained nextgroup=lgp30Name,lgp30Number skipwhite'
execute 'syntax match lgp30Others /\%(^\|[ \t]\)\@1<=' . s:others . '\ze\%([ \t\r]\|$\)/ contained nextgroup=lgp30Rest skipwhite'
syntax match lgp30Blank /^[ \t]\+/ nextgroup=lgp30Named,lgp30Others
syntax match lgp30Name /[a-z][^ \t\r]*/ contained nextgroup=lgp30Rest skipwhite
syntax match lgp30Number /[^ \t\ra-z;][^ \t\r]*/ contained nextgroup=lgp30Rest skipwhite
syntax match lgp30Rest /[^ \t\r;][^ \t\r]*/ contained nextgroup=lgp30Rest skipwhite
syntax match lgp30Comment /\%(^\|[ \t]\)\@1<=;.*$/ contains=@Spell
unlet s:named s:others

highlight default link lgp30Label Function
highlight default link lgp30Named Keyword
highlight default link lgp30Others Keyword
highlight default link lgp30Name Identifier
highlight default link lgp30Number Number
highlight default link lgp30Rest Number
highlight default link lgp30Comment Comment

let b:current_syntax = 'lgp30'
