" Vim syntax of .fact files, the core of FaCT that Hepurita compiles. The words and tokens are those of docs/LANGUAGE.md.
if exists("b:current_syntax")
  finish
endif

syntax case match
syntax iskeyword 48-57,65-90,95,97-122

" Of items that match at one place Vim takes the last, and a keyword before them all.
syntax match factUnknown "[^ \t\r0-9A-Za-z_]"
syntax match factBracket "[][(){},;]"
syntax match factOperator "<<<\|<<\|>>\|<=\|>=\|==\|!=\|&&\|||\|[-+*/%&|^~!<>=]"
syntax match factBadNumber "\<\d\w*"
syntax match factNumber "\<\%(0x\x\+\|\d\+\)\%(u8\|u16\|u32\)\=\>"
syntax match factCall "\<\h\w*\>\ze\s*("
syntax match factComment "//.*$" contains=@Spell

syntax keyword factPublic public
syntax keyword factSecret secret
syntax keyword factModifier export mut
syntax keyword factType void bool uint8 uint16 uint32
syntax keyword factBoolean true false
syntax keyword factConditional if else
syntax keyword factRepeat for from to
syntax keyword factReturn return
syntax keyword factSelect select

highlight default link factUnknown Error
highlight default link factBracket Delimiter
highlight default link factOperator Operator
highlight default link factBadNumber Error
highlight default link factNumber Number
highlight default link factCall Function
highlight default link factComment Comment
highlight default link factPublic StorageClass
highlight default link factSecret Special
highlight default link factModifier StorageClass
highlight default link factType Type
highlight default link factBoolean Boolean
highlight default link factConditional Conditional
highlight default link factRepeat Repeat
highlight default link factReturn Statement
highlight default link factSelect Operator

let b:current_syntax = "fact"
