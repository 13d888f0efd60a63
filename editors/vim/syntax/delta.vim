" Vim syntax of Delta programs.
if exists('b:current_syntax')
  finish
endif

syntax keyword deltaDeclaration fun main type let in with from
syntax keyword deltaControl case of wait if then else fold
syntax keyword deltaConstructor inl inr fst snd
syntax keyword deltaConstant nil eps
syntax keyword deltaType Int
syntax match deltaNumber '\<\d\+\>'
syntax match deltaOperator '||\|::\|=>\|[-+*/<=.|]'
syntax match deltaComment '//.*$' contains=@Spell

highlight default link deltaDeclaration Keyword
highlight default link deltaControl Conditional
highlight default link deltaConstructor Function
highlight default link deltaConstant Constant
highlight default link deltaType Type
highlight default link deltaNumber Number
highlight default link deltaOperator Operator
highlight default link deltaComment Comment

let b:current_syntax = 'delta'
