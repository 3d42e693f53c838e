" What Vim does in the check of the language server: it opens a file by ALE, renames, and writes all files.
" $LSP_CHECK has the words of the program, each on a line; $LSP_STEPS is a list of steps: path:line:column:name.
set nocompatible hidden noswapfile
set runtimepath^=/usr/share/vim-ale
filetype plugin on
let g:ale_linters = {'go': ['gorefd']}
runtime! plugin/ale.vim
runtime autoload/ale/util.vim

" ALE asks for the new name; here the step has it.
function! ale#util#Input(message, value, ...) abort
  return s:name
endfunction

let s:words = split($LSP_CHECK, "\n")
call ale#linter#Define('go', {
\  'name': 'gorefd',
\  'lsp': 'stdio',
\  'executable': s:words[0],
\  'command': join(map(copy(s:words), 'ale#Escape(v:val)'), ' '),
\  'project_root': {buffer -> getcwd()},
\})

" All texts that the client has, as it shows them.
function! s:Texts() abort
  return map(getbufinfo({'bufloaded': 1}), 'getbufline(v:val.bufnr, 1, "$")')
endfunction

for s:step in split($LSP_STEPS, "\n")
  let [s:path, s:line, s:column, s:name] = split(s:step, ':')
  execute 'edit ' . s:path
  call cursor(str2nr(s:line), str2nr(s:column))
  ALELint
  sleep 500m
  let s:before = s:Texts()
  ALERename
  let s:waited = 0
  while s:Texts() ==# s:before
    if s:waited == 600
      cquit!
    endif
    sleep 100m
    let s:waited += 1
  endwhile
  sleep 500m
endfor
wall
qall!
