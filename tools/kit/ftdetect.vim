" Files of som: interfaces, bodies, and mains.
autocmd BufRead,BufNewFile *.idl if search('\<implementation\>\|#include\s*<somobj\.idl>\|^\s*interface\>', 'nw') | setlocal filetype=somidl | endif
autocmd BufRead,BufNewFile *.bod,*.main setlocal filetype=sombod
