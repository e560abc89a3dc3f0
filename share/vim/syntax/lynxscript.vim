" Vim syntax of scripts for `lynx drive`. docs/SCRIPT.md has the forms of their lines; a line of none of them is shown as an error.
if exists('b:current_syntax')
  finish
endif
syntax case match

syntax match lynxscriptError '^.\+$'
syntax match lynxscriptComment '^#.*$'
syntax match lynxscriptHeader '^\(version\|kernels\) \(0\|[1-9]\d*\)$' contains=lynxscriptWord,lynxscriptNumber
syntax match lynxscriptHeader '^process \(0\|[1-9]\d*\) on \(0\|[1-9]\d*\)$' contains=lynxscriptWord,lynxscriptNumber
syntax match lynxscriptHeader '^wire \(0\|[1-9]\d*\) \(0\|[1-9]\d*\)$' contains=lynxscriptWord,lynxscriptNumber
syntax match lynxscriptTaking '^take \(0\|[1-9]\d*\) \(0\|[1-9]\d*\)$' contains=lynxscriptWord,lynxscriptNumber
syntax match lynxscriptTaking '^settle$' contains=lynxscriptWord
syntax match lynxscriptCall '^p\(0\|[1-9]\d*\) \(make\|wait\|exit\)$' contains=lynxscriptProcess,lynxscriptVerb
syntax match lynxscriptCall '^p\(0\|[1-9]\d*\) \(destroy\|receive\) \d\+\.\d\+[ab]$' contains=lynxscriptProcess,lynxscriptVerb,lynxscriptEnd
syntax match lynxscriptCall '^p\(0\|[1-9]\d*\) cancel \d\+\.\d\+[ab] \(in\|out\)$' contains=lynxscriptProcess,lynxscriptVerb,lynxscriptEnd,lynxscriptWay
syntax match lynxscriptCall '^p\(0\|[1-9]\d*\) print \(-\|\([A-Za-z0-9_.]\|%\x\x\)\+\)$' contains=lynxscriptProcess,lynxscriptVerb
syntax match lynxscriptCall '^p\(0\|[1-9]\d*\) send \d\+\.\d\+[ab] \(-\|\([A-Za-z0-9_.]\|%\x\x\)\+\)\( +\d\+\.\d\+[ab]\)\{,8}$' contains=lynxscriptProcess,lynxscriptVerb

syntax match lynxscriptWord contained '\<\(version\|kernels\|process\|on\|wire\|take\|settle\)\>'
syntax match lynxscriptNumber contained '\<\d\+\>'
syntax match lynxscriptProcess contained '^p\d\+\>' nextgroup=lynxscriptVerb skipwhite
syntax match lynxscriptVerb contained '\<\(make\|destroy\|receive\|cancel\|wait\|exit\)\>'
syntax match lynxscriptVerb contained '\<print\>' nextgroup=lynxscriptText skipwhite
syntax match lynxscriptVerb contained '\<send\>' nextgroup=lynxscriptSentOn skipwhite
syntax match lynxscriptEnd contained '\<\d\+\.\d\+[ab]\>'
syntax match lynxscriptSentOn contained '\d\+\.\d\+[ab]' nextgroup=lynxscriptText skipwhite
syntax match lynxscriptEnclosed contained '+\d\+\.\d\+[ab]\>'
syntax match lynxscriptText contained '\(-\|\([A-Za-z0-9_.]\|%\x\x\)\+\)' nextgroup=lynxscriptEnclosed skipwhite
syntax match lynxscriptWay contained '\<\(in\|out\)$'

highlight default link lynxscriptError Error
highlight default link lynxscriptComment Comment
highlight default link lynxscriptWord Keyword
highlight default link lynxscriptNumber Number
highlight default link lynxscriptProcess Identifier
highlight default link lynxscriptVerb Statement
highlight default link lynxscriptEnd Type
highlight default link lynxscriptSentOn Type
highlight default link lynxscriptEnclosed Special
highlight default link lynxscriptText String
highlight default link lynxscriptWay Keyword

let b:current_syntax = 'lynxscript'
