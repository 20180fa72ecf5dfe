" :make checks the specification, and goes to the places where it is refused by the program, refuted or undecided. It runs `cise`, which is `./cise` on
" the path or by g:cise_program. What is said below a place belongs to its entry and is none of its own.
if exists("current_compiler")
  finish
endif
let current_compiler = "cise"
let &l:makeprg = get(g:, "cise_program", "cise") . " explain --places %:S"
CompilerSet errorformat=%E%f:%l:%c:\ %m,%-C%*[\ ]%*[0-9]\ \|%.%#,%-C%*[\ ]\|%.%#,%-GThe\ program%.%#,%-G\ \ The\ program\ stops%.%#,%Z\ \ %m,%-G%.%#
