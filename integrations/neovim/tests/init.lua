-- What a user of the tests has: nothing. The plugin is a package, which Neovim loads behind this.
vim.o.swapfile = false
vim.o.columns, vim.o.lines = 120, 30
