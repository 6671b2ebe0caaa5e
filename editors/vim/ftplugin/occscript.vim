" Scripts and orders have parts of programs in them.
runtime! ftplugin/occ.vim
