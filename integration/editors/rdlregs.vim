" Vim: `:make` judges the file at hand, and `:cnext` goes from failure to failure. It goes into ~/.vim/compiler/rdlregs.vim, and
" `autocmd BufRead,BufNewFile *.rdl compiler rdlregs` into ~/.vimrc.
let current_compiler = "rdlregs"
if exists(":CompilerSet") != 2
  command -nargs=* CompilerSet setlocal <args>
endif
CompilerSet makeprg=rdlregs\ check\ %:S
CompilerSet errorformat=%f:%l:%c:\ %m,%-G%f:\ ok
