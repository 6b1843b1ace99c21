-- The commands, the mappings and the highlighting of colfind. What they do is loaded when it is first asked for.
if vim.g.loaded_colfind then
  return
end
vim.g.loaded_colfind = 1

local api = vim.api

api.nvim_set_hl(0, 'Colfind', { default = true, link = 'Search' })

api.nvim_create_user_command('Colfind', function(given)
  require('colfind').find(given.args, given.bang)
end, { nargs = '?', bang = true, desc = 'mark matches by Unicode collation, and go to the next one' })
api.nvim_create_user_command('ColfindClear', function()
  require('colfind').clear()
end, { desc = 'mark no matches' })
api.nvim_create_user_command('ColfindGrep', function(given)
  require('colfind').grep(given.args)
end, { nargs = '+', complete = function(...) -- with 'file' Neovim would expand the words
  return require('colfind').complete(...)
end, desc = 'matches of this buffer or of files as a quickfix list' })

local group = api.nvim_create_augroup('colfind', {})
api.nvim_create_autocmd('CmdlineChanged', { group = group, pattern = ':', callback = function()
  if package.loaded.colfind or vim.fn.getcmdline():find('^[%s:]*Colfind!?%s') then
    require('colfind').typed()
  end
end })
api.nvim_create_autocmd('CmdlineLeave', { group = group, pattern = ':', callback = function()
  if package.loaded.colfind then
    require('colfind').end_typing()
  end
end })

-- A key that jumps to matches. As a command, and no function, it can be repeated by `.` behind an operator.
local function map(key, plug, direction, desc)
  local modes, jump = { 'n', 'x', 'o' }, "<Cmd>lua require('colfind').%s<CR>"
  vim.keymap.set(modes, plug, jump:format(('step(%d, vim.v.count1)'):format(direction)), { desc = desc })
  if not (vim.g.colfind_no_mappings or vim.fn.hasmapto(plug) == 1 or vim.fn.maparg(key, 'n') ~= '') then
    vim.keymap.set(modes, key, jump:format(("press('%s', %d)"):format(key, direction)), { desc = desc })
  end
end
map(']c', '<Plug>(colfind-next)', 1, 'next match of :Colfind')
map('[c', '<Plug>(colfind-previous)', -1, 'previous match of :Colfind')
