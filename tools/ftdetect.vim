autocmd BufRead,BufNewFile *.lspace setfiletype lspace
