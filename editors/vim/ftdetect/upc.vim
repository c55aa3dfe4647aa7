" A file that ends in .upc is a program in Unified Parallel C.
autocmd BufNewFile,BufRead *.upc setfiletype upc
