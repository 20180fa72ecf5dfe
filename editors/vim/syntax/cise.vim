" The words of a specification, as docs/users/LANGUAGE.md has them.
if exists("b:current_syntax")
  finish
endif
syntax case match
syntax keyword ciseItem cise sort const relation counter initially token conflict invariant operation end
syntax keyword ciseLine requires observes insert remove add set takes when
syntax keyword ciseMode shared exclusive
syntax keyword ciseOperator not and or implies
syntax keyword ciseQuantifier forall exists
syntax keyword ciseKind int
syntax keyword ciseBoolean true false
syntax match ciseNumber "\<\%(0\|[1-9][0-9]*\)"
syntax match ciseSign "<=\|>=\|!=\|[-<>=+*]"
syntax match ciseComment "#.*$" contains=ciseTodo,@Spell
syntax keyword ciseTodo contained TODO FIXME
highlight default link ciseItem Structure
highlight default link ciseLine Statement
highlight default link ciseMode StorageClass
highlight default link ciseOperator Operator
highlight default link ciseQuantifier Repeat
highlight default link ciseKind Type
highlight default link ciseBoolean Boolean
highlight default link ciseNumber Number
highlight default link ciseSign Operator
highlight default link ciseComment Comment
highlight default link ciseTodo Todo
let b:current_syntax = "cise"
