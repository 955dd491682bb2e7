" Vim syntax file for texts of grinc: Core, modules, lambdas, equations and types.
if exists('b:current_syntax')
  finish
endif
syntax keyword coreKeyword data let in case of module export import type sig
syntax keyword corePrimitive add sub mul quot rem eq lt
syntax match coreConstructor "\<[A-Z][A-Za-z0-9_']*"
syntax match coreName "\<[a-z_][A-Za-z0-9_']*" contains=coreKeyword,corePrimitive
syntax match coreInteger "-\?\<[0-9]\+"
syntax match coreSign "->\|[={};|:\\]"
syntax match coreComment "--.*$"
highlight default link coreKeyword Keyword
highlight default link corePrimitive Function
highlight default link coreConstructor Type
highlight default link coreInteger Number
highlight default link coreSign Operator
highlight default link coreComment Comment
setlocal commentstring=--\ %s iskeyword+='
let b:current_syntax = 'core'
