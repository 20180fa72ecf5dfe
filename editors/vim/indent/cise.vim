" Lines of an operation are indented, and so are further lines of an item.
if exists("b:did_indent")
  finish
endif
let b:did_indent = 1
setlocal indentexpr=CiseIndent(v:lnum) indentkeys=o,O,=end,=operation,=sort,=invariant nosmartindent
let b:undo_indent = "setlocal indentexpr< indentkeys< smartindent<"

if exists("*CiseIndent")
  finish
endif

let s:items = '^\s*\%(cise\|sort\|const\|relation\|counter\|initially\|token\|conflict\|invariant\|operation\|end\)\>'
let s:lines = '^\s*\%(requires\|observes\|insert\|remove\|add\|set\|takes\)\>'

function CiseIndent(number)
  let line = getline(a:number)
  if line =~ s:items
    return 0
  endif
  let before = prevnonblank(a:number - 1)
  let head = before
  while head > 0 && getline(head) !~ s:items
    let head -= 1
  endwhile
  let inside = head > 0 && getline(head) =~ '^\s*operation\>' && getline(head) !~ '\<end\s*$'
  if line =~ s:lines || line =~ '^\s*#' || before == 0
    return inside ? shiftwidth() : 0
  endif
  if inside
    " Behind a line that isn't whole, as one with an open bracket, more of it follows.
    return s:open(before) && getline(before) =~ s:lines ? 2 * shiftwidth() : getline(before) =~ s:items ? shiftwidth() : indent(before)
  endif
  return s:open(before) ? shiftwidth() : 0
endfunction

" Whether a line ends within brackets, behind a connective, or behind the dot of a quantifier.
function s:open(number)
  let text = substitute(getline(a:number), '#.*', '', '')
  return count(text, "(") > count(text, ")") || text =~ '\%(\<and\|\<or\|\<implies\|\<when\|[.,]\)\s*$'
endfunction
