" Files of the core of FaCT that Hepurita compiles.
autocmd BufNewFile,BufRead *.fact setfiletype fact
