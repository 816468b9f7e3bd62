" The files that lincheck reads.
autocmd BufRead,BufNewFile *.lc,*.spec,*.cert,*.hints,*.formula,*.plan set filetype=lincheck
