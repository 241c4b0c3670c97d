" The event files of flowc. Of items that match at one place Vim takes the one that was defined last.
if exists("b:current_syntax")
  finish
endif

syn match floweventsError "\v[^ \t\r]+"
syn match floweventsValue "\v[A-Za-z][A-Za-z0-9_]*[=]%(true|false|-?[0-9]+%(\.[0-9]+)?)\ze%([ \t\r]|$)"
syn match floweventsEvent "\v^[ \t]*[^ \t\r]+"
syn match floweventsTick "\v^[ \t]*tick\ze%([ \t\r]|$)"
syn match floweventsComment "\v^[ \t]*#.*$"

hi def link floweventsError Error
hi def link floweventsValue Constant
hi def link floweventsEvent Function
hi def link floweventsTick Keyword
hi def link floweventsComment Comment

setlocal commentstring=#\ %s
let b:current_syntax = "flowevents"
