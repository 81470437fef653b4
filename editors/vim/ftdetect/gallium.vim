" Sources of Gallium.
au BufRead,BufNewFile *.gal setfiletype gallium
