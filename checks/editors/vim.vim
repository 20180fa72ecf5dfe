" Run by checks/editor: what :make gives, folds and indents, in a folder with a.cise and wrong.cise.
set nocompatible
execute 'set runtimepath^=' . $CISE_EDITORS . '/vim'
filetype plugin indent on
syntax on
let g:cise_program = $CISE_SCRIPT
let s:found = {}

function s:Entries()
  return map(filter(getqflist(), {_, v -> v.valid}), {_, v -> [bufname(v.bufnr), v.lnum, v.col, v.text]})
endfunction

edit wrong.cise
silent make
let s:found.wrong = s:Entries()
let s:found.all = len(getqflist())
edit a.cise
silent make
let s:found.verdicts = s:Entries()
let s:found.line = line('.')
set foldlevel=0
let s:found.fold = [foldclosed(20), foldclosedend(20), foldclosed(5)]
set foldlevel=99
let s:found.match = b:match_words
let s:found.syntax = synIDattr(synID(19, 4, 1), 'name')
normal gg=G
let s:found.text = join(getline(1, '$'), "\n") . "\n"
call writefile([json_encode(s:found)], 'found.json')
qa!
