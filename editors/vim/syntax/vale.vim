" Vim syntax of a core of Vale.
if exists("b:current_syntax")
  finish
endif
syntax case match

syntax keyword valeStatement func struct interface impl for set return foreach in merge
syntax keyword valeConditional if else
syntax keyword valeRepeat while
syntax keyword valeModifier pure iso imm parallel
syntax keyword valeOperator and or not
syntax keyword valeBoolean true false
syntax keyword valeType int bool str
syntax match valeBuiltIn /\v<(print|println|drop|len|push|pop|text|slice|byte|is_number|number)>\ze\s*\(/
syntax match valeNumber /\v<\d+>/
syntax match valeEscape /\v\\[nt\\"]/ contained
syntax region valeString start=/"/ skip=/\\\\\|\\"/ end=/"/ oneline contains=valeEscape
syntax match valeComment "//.*$"

highlight default link valeStatement Statement
highlight default link valeConditional Conditional
highlight default link valeRepeat Repeat
highlight default link valeModifier StorageClass
highlight default link valeOperator Operator
highlight default link valeBoolean Boolean
highlight default link valeType Type
highlight default link valeBuiltIn Function
highlight default link valeNumber Number
highlight default link valeEscape SpecialChar
highlight default link valeString String
highlight default link valeComment Comment

let b:current_syntax = "vale"
