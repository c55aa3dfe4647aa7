" C with the words of UPC 1.3. Words of C99 that the profile of upc refuses are shown as errors.
if exists("b:current_syntax")
  finish
endif
runtime! syntax/c.vim
unlet! b:current_syntax

syntax keyword upcStorage shared strict relaxed
syntax keyword upcStatement upc_forall upc_barrier upc_notify upc_wait upc_fence
syntax keyword upcOperator upc_localsizeof upc_blocksizeof upc_elemsizeof
syntax keyword upcConstant MYTHREAD THREADS UPC_MAX_BLOCK_SIZE
syntax keyword upcType upc_lock_t upc_op_t upc_flag_t
syntax match upcConstant /\<UPC_\(ADD\|MULT\|AND\|OR\|XOR\|LOGAND\|LOGOR\|MIN\|MAX\)\>/
syntax match upcConstant /\<UPC_\(IN\|OUT\)_\(NO\|MY\|ALL\)SYNC\>/
syntax match upcCall /\<upc_\(threadof\|phaseof\|addrfield\|affinitysize\|alloc\|free\|lock\|unlock\)\ze\s*(/
syntax match upcCall /\<upc_\(lock_attempt\|lock_free\|global_\w\+\|all_\w\+\|mem\w\+\)\ze\s*(/
syntax keyword upcRefused auto double enum extern float goto inline register restrict typedef union volatile
syntax keyword upcRefused _Bool _Complex _Imaginary

highlight default link upcStorage StorageClass
highlight default link upcStatement Statement
highlight default link upcOperator Operator
highlight default link upcConstant Constant
highlight default link upcType Type
highlight default link upcCall Function
highlight default link upcRefused Error

let b:current_syntax = "upc"
