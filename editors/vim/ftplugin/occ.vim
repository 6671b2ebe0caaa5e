" Programs of WHILE-free occam: two spaces a level, no tabs, names with dots.
if exists('b:did_ftplugin')
  finish
endif
let b:did_ftplugin = 1
setlocal expandtab shiftwidth=2 softtabstop=2
setlocal comments=:-- commentstring=--\ %s
setlocal iskeyword+=.
let b:undo_ftplugin = 'setlocal expandtab< shiftwidth< softtabstop< comments< commentstring< iskeyword<'
