" Vim syntax of policies, and of traces and histories, whose names end with .policy, .trace and .history.
" tools/install puts it where vim looks for it. By hand, copy it to ~/.vim/syntax, and ipanema_filetype.vim to ~/.vim/ftdetect.
if exists('b:current_syntax')
  finish
endif

if expand('%:e') ==# 'trace'
  syntax match ipanemaComment /^\s*#.*/
  syntax keyword ipanemaStatement cores rounds entries core thread order
  syntax keyword ipanemaKeyword round weight run yield block forever
elseif expand('%:e') ==# 'history'
  syntax keyword ipanemaStatement history round enter wake work steal fail pass
  syntax keyword ipanemaKeyword cores keep queue block end
else
  syntax match ipanemaComment /#.*/
  syntax keyword ipanemaStatement policy load place elect on filter choose steal
  syntax keyword ipanemaKeyword thread in start here min max first when while limit prefer always and or not
  syntax keyword ipanemaKeyword count weight enqueue tick yield block queue keep
  syntax match ipanemaKeyword /\<\%(core\|within\)\>/
  syntax match ipanemaStatement /\<levels\?\>/
  syntax match ipanemaReference /\<\%(self\|victim\|core\|t\)\s*\.\s*\h\w*/
  syntax match ipanemaOperator /[-+*]\|[=!<>]=\|[=<>]/
endif
syntax match ipanemaNumber /\<\d\+\>/

highlight default link ipanemaComment Comment
highlight default link ipanemaStatement Statement
highlight default link ipanemaKeyword Keyword
highlight default link ipanemaReference Identifier
highlight default link ipanemaOperator Operator
highlight default link ipanemaNumber Number

let b:current_syntax = 'ipanema'
