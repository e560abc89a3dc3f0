" Vim syntax of plans. docs/refusals/plan.md has the forms of their lines; a line of none of them is shown as an error.
if exists('b:current_syntax')
  finish
endif
syntax case match

syntax match lynxplanError '^.\+$'
syntax match lynxplanComment '^#.*$'
syntax match lynxplanLine '^\(version\|kernels\) \(0\|[1-9]\d*\)$' contains=lynxplanWord,lynxplanNumber
syntax match lynxplanLine '^wire \(0\|[1-9]\d*\) \(0\|[1-9]\d*\)$' contains=lynxplanWord,lynxplanNumber
syntax match lynxplanLine '^process \(0\|[1-9]\d*\) on \(0\|[1-9]\d*\) runs \S\+$' contains=lynxplanPlace,lynxplanRuns
syntax match lynxplanLine '^process \(0\|[1-9]\d*\) on \(0\|[1-9]\d*\) hosts \(0\|[1-9]\d*\) after \(0\|[1-9]\d*\)$' contains=lynxplanWord,lynxplanNumber

syntax match lynxplanPlace contained '^process \d\+ on \d\+' contains=lynxplanWord,lynxplanNumber nextgroup=lynxplanRuns skipwhite
syntax match lynxplanRuns contained '\<runs\>' nextgroup=lynxplanFile skipwhite
syntax match lynxplanFile contained '\S\+$'
syntax match lynxplanWord contained '\<\(version\|kernels\|process\|on\|hosts\|after\|wire\)\>'
syntax match lynxplanNumber contained '\<\d\+\>'

highlight default link lynxplanError Error
highlight default link lynxplanComment Comment
highlight default link lynxplanWord Keyword
highlight default link lynxplanRuns Keyword
highlight default link lynxplanNumber Number
highlight default link lynxplanFile String

let b:current_syntax = 'lynxplan'
