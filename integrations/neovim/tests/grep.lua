-- The quickfix list.
local T = dofile(vim.env.TESTS .. '/helper.lua')
local api = vim.api

local function items()
  local rows = {}
  for _, item in ipairs(vim.fn.getqflist()) do
    rows[#rows + 1] = ('%s:%d:%d-%d:%d:%s'):format(vim.fn.fnamemodify(api.nvim_buf_get_name(item.bufnr), ':t'), item.lnum, item.col,
      item.end_lnum, item.end_col, item.text)
  end
  return rows
end

-- What the list has when the search has said that it is over.
local function found(argument)
  vim.cmd('messages clear')
  vim.cmd('ColfindGrep ' .. argument)
  assert(vim.wait(20000, function()
    return T.said()[1] ~= ''
  end, 1), 'the search does not end')
  return items()
end

local folder = vim.fn.tempname()
vim.fn.mkdir(folder)
vim.cmd('cd ' .. folder)
vim.fn.writefile({ 'one', 'my résumé, resume', '' }, 'a.txt', 'b')
vim.fn.writefile({ 'resume\r', '\r', 'RESUME\r', 'x resume' }, 'b c.txt', 'b')
vim.fn.writefile({ 'ok resume', 'r\233sum\233', 'resume', '' }, 'latin1.txt', 'b')
vim.fn.writefile({ 'none', '' }, 'd.txt', 'b')

T.test('this buffer', function()
  T.lines('résumé', 'a resume b resume')
  T.same('the list', found('resume'), { ':1:1-1:9:résumé', ':2:3-2:9:a resume b resume', ':2:12-2:18:a resume b resume' })
  T.same('what is said', T.said(), { '3 matches in 1 of 1 files' })
  vim.cmd('cfirst')
  vim.cmd('cnext')
  T.same('the cursor', T.cursor(), { 2, 2 })
  T.same('the title', vim.fn.getqflist({ title = 0 }).title, ':ColfindGrep resume')
end)

T.test('files, as :vimgrep names them', function()
  T.same('one', found('resume a.txt'), { 'a.txt:2:4-2:12:my résumé, resume', 'a.txt:2:14-2:20:my résumé, resume' })
  T.same('with a space', found('/resume/ b\\ c.txt d.txt'), { 'b c.txt:1:1-1:7:resume', 'b c.txt:4:3-4:9:x resume' })
  T.same('what is said', T.said(), { '2 matches in 1 of 2 files' })
  T.same('a pattern with a space, and flags', found('/x resume/gj b*.txt d.txt **/b*.txt'), { 'b c.txt:4:1-4:9:x resume' })
  T.same('nothing', found('bach a.txt d.txt'), {})
  T.same('what is said', T.said(), { 'E480: No match: bach' })
end)

T.test('a file with a fault, and one that is not there', function()
  T.same('the list', found('resume latin1.txt none.txt'), { 'latin1.txt:1:4-1:10:ok resume', 'latin1.txt:3:1-3:7:resume' })
  T.same('what is said', vim.v.warningmsg,
    'colfind: 2 matches, 2 faults: latin1.txt: fault 31 at 11: the text is not UTF-8 here, or ends amid a character')
end)

T.test('a buffer that is changed is searched as it is', function()
  vim.cmd('edit d.txt')
  T.lines('a resume')
  vim.cmd('new')
  T.same('the list', found('resume d.txt'), { 'd.txt:1:3-1:9:a resume' })
end)

T.test('a new search ends the one before, and a list stays', function()
  found('resume a.txt')
  vim.cmd('ColfindGrep resume *.txt')
  T.same('the list', found('resume b\\ c.txt'), { 'b c.txt:1:1-1:7:resume', 'b c.txt:4:3-4:9:x resume' })
  vim.cmd('colder | colder')
  T.same('the first list', #items(), 2)
end)

T.test('QuickFixCmdPost opens the list', function()
  vim.cmd('autocmd QuickFixCmdPost ColfindGrep ++once cwindow')
  found('resume a.txt')
  T.same('windows', vim.fn.winnr('$'), 2)
  vim.cmd('cclose')
end)

T.test('one long line with many matches', function()
  vim.fn.writefile({ ('resume '):rep(20000) }, 'long.txt', 'b')
  T.same('matches', #found('resume long.txt'), 20000)
  local last = vim.fn.getqflist()[20000]
  T.same('the last', { last.lnum, last.col, #last.text }, { 1, 139994, 1000 })
end)

vim.cmd('cd /')
vim.fn.delete(folder, 'rf')
T.done()
