" Instruction text of fdbtester, made by scripts/made.
autocmd BufRead,BufNewFile *.fdbt setfiletype fdbt
