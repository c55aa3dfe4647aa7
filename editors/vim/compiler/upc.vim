" After `:compiler upc`, `:make` checks the file by bin/why on four threads, and `:copen` lists the places.
" `:let g:upc_why = "/path/to/bin/why run -T 2"` before it chooses another call.
if exists("current_compiler")
  finish
endif
let current_compiler = "upc"
let s:why = shellescape(resolve(expand("<sfile>:p:h") .. "/../../../bin/why"), 1)
let s:call = get(g:, "upc_why", s:why .. " check -T 4")
let &l:makeprg = s:call .. " %:S"
CompilerSet errorformat=%f:%l:%c:\ %trror:\ %m,%f:%l:%c:\ %m,%-G%.%#
