" Settings for sources of the LGP-30; in Neovim the language server is started too, where it is installed.
if exists('b:did_ftplugin')
  finish
endif
let b:did_ftplugin = 1

setlocal comments=:; commentstring=;\ %s autoindent tabstop=8 softtabstop=0 shiftwidth=8 expandtab
let b:undo_ftplugin = 'setlocal comments< commentstring< autoindent< tabstop< softtabstop< shiftwidth< expandtab< omnifunc< formatexpr<'

if has('nvim')
  lua require('lgp30').start()
endif
