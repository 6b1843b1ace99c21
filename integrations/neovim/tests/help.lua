-- The help and its tags.
local T = dofile(vim.env.TESTS .. '/helper.lua')

T.test('the tags are those of the help', function()
  local folder, doc = vim.fn.tempname(), vim.fn.fnamemodify(vim.env.TESTS, ':h') .. '/doc'
  vim.fn.mkdir(folder)
  vim.fn.writefile(vim.fn.readfile(doc .. '/colfind.txt'), folder .. '/colfind.txt')
  vim.cmd('helptags ' .. folder)
  T.same('the tags', vim.fn.readfile(doc .. '/tags'), vim.fn.readfile(folder .. '/tags'))
end)

T.test('each command, mapping and option has help', function()
  for _, tag in ipairs({ ':Colfind', ':ColfindClear', ':ColfindGrep', '<Plug>(colfind-next)', 'g:colfind_strength', 'hl-Colfind' }) do
    vim.cmd('silent help ' .. tag)
    T.same('the file of ' .. tag, vim.fn.expand('%:t'), 'colfind.txt')
  end
  T.same('commands without help', vim.tbl_filter(function(name)
    return name:find('^Colfind') and #vim.fn.getcompletion(':' .. name, 'help') == 0
  end, vim.tbl_keys(vim.api.nvim_get_commands({}))), {})
end)

T.done()
