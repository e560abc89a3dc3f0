" Vim syntax of transcripts. docs/TRANSCRIPT.md has the forms of their lines; a line of none of them is shown as an error.
if exists('b:current_syntax')
  finish
endif
syntax case match

" What the words of the forms below stand for, each behind those that have it in them. A number is `#`.
let s:number = '\%(0\|[1-9]\d*\)'
let s:end = s:number .. '\.' .. s:number .. '[ab]'
let s:words = [
      \ ['ENDS', '\%( +' .. s:end .. '\)\{,8}'],
      \ ['VALUES', '\%( +' .. s:end .. '\%(:' .. s:number .. '\)\{9}\)\{,8}'],
      \ ['END', s:end],
      \ ['TEXT', '\%(-\|\%([A-Za-z0-9_.]\|%\x\x\)\+\)'],
      \ ['#', s:number]]

" s:line(FORM, PARTS): lines of this form have these parts
function! s:line(form, parts) abort
  let pattern = a:form
  for [word, meant] in s:words
    let pattern = substitute(pattern, word, escape(meant, '\&~'), 'g')
  endfor
  execute "syntax match lynxtranscriptLine '^" .. pattern .. "$' contains=" .. a:parts
endfunction

syntax match lynxtranscriptError '^.\+$'
for s:form in ['transcript [12]', 'kernels #', 'process # on #', 'wire # #', 'note # \%(nothing\|waits\)', 'quiet', 'open', 'spent #']
  call s:line(s:form, 'lynxtranscriptWord,lynxtranscriptNumber')
endfor
for s:form in ['\%(make\|wait\|exit\)', '\%(destroy\|receive\) END', 'cancel END \%(in\|out\)', 'print TEXT', 'send END TEXTENDS']
  call s:line('# k# p# ' .. s:form, 'lynxtranscriptStamp')
endfor
for s:form in ['\%(want\|unwant\|unwanted\|taken\) END # # #', 'parcel END # # # # TEXTVALUES', 'back END #VALUES', '\%(gone\|known\|forget\) END #', 'moved END # #', 'goneseen END']
  call s:line('# k# from # ' .. s:form, 'lynxtranscriptStamp')
endfor
for s:form in ['make END END', 'refuse p# \u\a\+', '\%(destroy\|receive\|withdraw\|free\) END', 'send END #ENDS', 'cancel END \%(in\|out\)', '\%(wait\|exit\) p#',
      \ 'report p# END \%(out done\|in destroyed\)', 'report p# END out destroyedENDS', 'report p# END in done TEXTENDS',
      \ '\%(match\|complete\) END #', 'take END # p#\%( late\)\=', 'notice END\%( dead\)\=', 'back END #\%( dead\)\=']
  call s:line('\. ' .. s:form, 'lynxtranscriptDot')
endfor

syntax match lynxtranscriptWord contained '\<\(transcript\|kernels\|process\|on\|wire\|note\|nothing\|waits\|quiet\|open\|spent\)\>'
syntax match lynxtranscriptNumber contained '\<\d\+\>'

" An entry: each part is followed by the next one.
syntax match lynxtranscriptStamp contained '^\d\+' nextgroup=lynxtranscriptKernel skipwhite
syntax match lynxtranscriptKernel contained 'k\d\+' nextgroup=lynxtranscriptProcess,lynxtranscriptFrom skipwhite
syntax match lynxtranscriptFrom contained 'from' nextgroup=lynxtranscriptSource skipwhite
syntax match lynxtranscriptSource contained '\d\+' nextgroup=lynxtranscriptVerb skipwhite
syntax match lynxtranscriptProcess contained 'p\d\+' nextgroup=lynxtranscriptVerb,lynxtranscriptRefusal,lynxtranscriptEnd,lynxtranscriptOutcome skipwhite
syntax match lynxtranscriptVerb contained '\a\+' nextgroup=lynxtranscriptEnd skipwhite
syntax match lynxtranscriptVerb contained 'print\>' nextgroup=lynxtranscriptText skipwhite
syntax match lynxtranscriptVerb contained '\(send\|parcel\)\>' nextgroup=lynxtranscriptCarrier skipwhite
syntax match lynxtranscriptCarrier contained '\d\+\.\d\+[ab]' nextgroup=lynxtranscriptText,lynxtranscriptParcelFields skipwhite
syntax match lynxtranscriptText contained '\S\+' nextgroup=lynxtranscriptAdded skipwhite
syntax match lynxtranscriptParcelFields contained '\d\+ \d\+ \d\+ \d\+ \@=' nextgroup=lynxtranscriptText skipwhite

" A service line.
syntax match lynxtranscriptDot contained '^\.' nextgroup=lynxtranscriptMeaning skipwhite
syntax match lynxtranscriptMeaning contained '\a\+' nextgroup=lynxtranscriptProcess,lynxtranscriptEnd skipwhite
syntax match lynxtranscriptRefusal contained '\u\a\+'
syntax match lynxtranscriptOutcome contained '\(in\|out\|done\|destroyed\|late\|dead\)\>' nextgroup=lynxtranscriptOutcome,lynxtranscriptAdded skipwhite
syntax match lynxtranscriptOutcome contained 'in done\>' nextgroup=lynxtranscriptText skipwhite

" Of both.
syntax match lynxtranscriptFields contained '\d\+\( \d\+\)*' nextgroup=lynxtranscriptAdded,lynxtranscriptProcess,lynxtranscriptOutcome skipwhite
syntax match lynxtranscriptEnd contained '\d\+\.\d\+[ab]' nextgroup=lynxtranscriptEnd,lynxtranscriptOutcome,lynxtranscriptFields skipwhite
syntax match lynxtranscriptAdded contained '+\S\+' nextgroup=lynxtranscriptAdded skipwhite

highlight default link lynxtranscriptError Error
highlight default link lynxtranscriptWord Keyword
highlight default link lynxtranscriptNumber Number
highlight default link lynxtranscriptStamp Number
highlight default link lynxtranscriptKernel Identifier
highlight default link lynxtranscriptFrom Keyword
highlight default link lynxtranscriptSource Identifier
highlight default link lynxtranscriptProcess Identifier
highlight default link lynxtranscriptVerb Statement
highlight default link lynxtranscriptCarrier Type
highlight default link lynxtranscriptText String
highlight default link lynxtranscriptParcelFields Number
highlight default link lynxtranscriptDot Comment
highlight default link lynxtranscriptMeaning PreProc
highlight default link lynxtranscriptRefusal Error
highlight default link lynxtranscriptOutcome Keyword
highlight default link lynxtranscriptEnd Type
highlight default link lynxtranscriptFields Number
highlight default link lynxtranscriptAdded Special

let b:current_syntax = 'lynxtranscript'
