" Syntax of basic LOTOS, as lotosseq reads it; made
" from the words of crates/text_tests/src/reserved_words.rt by tools/editor-syntax.
if exists('b:current_syntax')
  finish
endif

syntax case ignore
syntax iskeyword a-z,A-Z,48-57,_

syntax keyword lotosDefinition specification endspec behaviour behavior process endproc where
syntax keyword lotosBehaviour stop exit noexit hide in i
syntax keyword lotosFull accept choice let par library type
syntax match lotosIdentifier /\<\a\w*\>/
syntax match lotosSign @|@
syntax match lotosSign @\]@
syntax match lotosSign @\[@
syntax match lotosSign @;@
syntax match lotosSign @:@
syntax match lotosSign @,@
syntax match lotosSign @)@
syntax match lotosSign @(@
syntax match lotosSign @||@
syntax match lotosSign @|\[@
syntax match lotosSign @\[\]@
syntax match lotosSign @\[>@
syntax match lotosSign @>>@
syntax match lotosSign @:=@
syntax match lotosSign @|||@
syntax region lotosComment start=/(\*/ end=/\*)/ contains=@Spell
syntax sync fromstart

highlight default link lotosDefinition Structure
highlight default link lotosBehaviour Statement
highlight default link lotosFull Error
highlight default link lotosIdentifier Identifier
highlight default link lotosSign Operator
highlight default link lotosComment Comment

let b:current_syntax = 'lotos'
