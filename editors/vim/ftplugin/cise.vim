" Comments, names, folds and the compiler of a specification.
if exists("b:did_ftplugin")
  finish
endif
let b:did_ftplugin = 1
setlocal comments=:# commentstring=#\ %s iskeyword=@,48-57,_ shiftwidth=2 expandtab
" An operation is a fold, from its first word to its `end`.
setlocal foldmethod=expr foldexpr=getline(v:lnum)=~'^\\s*operation\\>'&&getline(v:lnum)!~'\\<end\\s*$'?'>1':getline(v:lnum)=~'^\\s*end\\>'?'<1':'=' foldlevel=99
" For matchit: % goes from an operation to its end.
let b:match_words = '\<operation\>:\<end\>'
let b:match_skip = 's:comment'
compiler cise
let b:undo_ftplugin = "setlocal comments< commentstring< iskeyword< shiftwidth< expandtab< foldmethod< foldexpr< foldlevel< makeprg< errorformat< | unlet! b:match_words b:match_skip"
