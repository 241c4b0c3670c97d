" The charts of flowc. Of items that match at one place Vim takes a keyword first, and then the one that was defined last.
if exists("b:current_syntax")
  finish
endif

syn match flowchartError "\v[^ \t\r]"
syn match flowchartName "\v[A-Za-z][A-Za-z0-9_]*"
syn match flowchartError "\v[A-Za-z][A-Za-z0-9_]{63,}"
syn match flowchartType "\v%(bool|u?int%(8|16|32|64)|[su]fix[1-9][0-9]?%(_En%(0|[1-9][0-9]?))?)\ze%(\W|$)"
syn match flowchartOperator "\v-[>]|[=][=]|[!][=]|[<][=]|[>][=]|[&][&]|[|][|]|[-=/+*<>!@]"
syn match flowchartDelimiter "\v[]{}()[;:,]"
syn match flowchartNumber "\v[0-9]+%(\.[0-9]+)?%(q[0-9]{1,2})?"
syn match flowchartError "\v[0-9]+%(\.[0-9]+)?%(q[0-9]+)?[A-Za-pr-z_]\w*"
syn match flowchartError "\v[0-9]+%(\.[0-9]+)?q%([0-9]+q\w*|\ze%([^0-9]|$))"
syn match flowchartError "\v[0-9]+%(\.[0-9]+)?q%(3[3-9]|[4-9][0-9]|[0-9]{3,})\w*"
syn match flowchartComment "\v[/][/].*$"

syn keyword flowchartStructure chart state junction event
syn keyword flowchartModifier or and history input output local saturate wrap error
syn keyword flowchartList entry during exit outer inner default
syn keyword flowchartStatement send to emit in tick
syn keyword flowchartBoolean true false

hi def link flowchartError Error
hi def link flowchartType Type
hi def link flowchartOperator Operator
hi def link flowchartDelimiter Delimiter
hi def link flowchartNumber Number
hi def link flowchartComment Comment
hi def link flowchartStructure Structure
hi def link flowchartModifier StorageClass
hi def link flowchartList Keyword
hi def link flowchartStatement Statement
hi def link flowchartBoolean Boolean

setlocal commentstring=//\ %s
let b:current_syntax = "flowchart"
