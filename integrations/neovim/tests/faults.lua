-- What the user is told of faults: one line each, and never more.
local T = dofile(vim.env.TESTS .. '/helper.lua')
local api = vim.api

local function says(wanted, ...)
  vim.cmd('messages clear')
  vim.cmd(...)
  T.same('what is said', T.said(), { wanted })
end

T.test('a table that is bad, or none', function()
  T.lines('resume')
  local bad = vim.fn.tempname()
  vim.fn.writefile({ '0061 ; [.1C00.0020.0002]', 'nonsense' }, bad)
  vim.g.colfind_table = bad
  says(('colfind: %s: fault 1 at 2: a line of the table file is malformed'):format(bad), 'Colfind resume')
  vim.g.colfind_table = bad .. '.none'
  says(('colfind: the table: %s.none: No such file or directory'):format(bad), 'Colfind resume')
  vim.fn.writefile(vim.fn.readfile(T.letters), bad .. '.none')
  says('search hit BOTTOM, continuing at TOP  [1/1]', 'Colfind resume')
end)

T.test('a pattern, options and a library that are bad', function()
  T.lines('resume')
  vim.cmd('Colfind! resume')
  says('colfind: fault 22 at 0: the pattern has nothing that counts at this strength', 'Colfind \204\129')
  T.same('the pattern before', T.marked(1), { { 'resume' } })
  vim.g.colfind_strength = 4
  says('colfind: g:colfind_strength is 1, 2 or 3, not 4', 'Colfind resume')
  vim.g.colfind_strength = nil
  vim.g.colfind_variable = 'other'
  says('colfind: g:colfind_variable is shifted or non-ignorable, not other', 'Colfind resume')
  vim.g.colfind_variable = nil
  vim.g.colfind_library = '/none/libcolfind.so.1'
  says('colfind: /none/libcolfind.so.1: cannot open shared object file: No such file or directory', 'Colfind resume')
end)

T.test('bytes that are no UTF-8', function()
  T.lines('resume', 'a resume \255 résumé', '\195', '\226\130 resume', 'resume\255', 'resume')
  vim.cmd('messages clear')
  vim.cmd('Colfind! resume')
  T.finished()
  T.same('what is marked', T.marked(1, 6), { { 'resume' }, { 'resume', 'résumé' }, {}, { 'resume' }, {}, { 'resume' } })
  T.same('what is said', T.said(), { 'colfind: line 2: fault 31 at 16: the text is not UTF-8 here, or ends amid a character' })
  vim.cmd('normal ]c]c')
  vim.cmd('silent normal! x')
  T.same('the marks behind a change', T.marked(6), { { 'resume' } })
  T.finished()
  T.same('what is said', #T.said(), 3)
end)

T.test('more marks in a row than a text may have', function()
  T.lines('a' .. ('\204\129'):rep(70) .. ' resume', 'resume')
  vim.cmd('Colfind! resume')
  T.finished()
  T.same('what is said', T.said(), { 'colfind: line 1: fault 32 at 61: the thirty-first combining mark in a row' })
  T.same('the ranges', T.ranges(T.finished()), { '142:148', '149:155' })
end)

T.test('NUL, and a file of any bytes', function()
  local name = vim.fn.tempname()
  math.randomseed(5)
  local bytes = {}
  for i = 1, 50000 do
    bytes[i] = string.char(math.random(0, 255))
  end
  local file = io.open(name, 'wb')
  file:write('a\0resume\n', table.concat(bytes), '\nresume\n')
  file:close()
  vim.cmd('silent edit ++enc=utf-8 ' .. name)
  vim.cmd('messages clear')
  vim.cmd('Colfind! resume')
  local scan = T.finished()
  T.same('matches', scan.stream.count >= 2 and { scan.stream:range(0) }, { 2, 8 })
  T.same('lines that were said', #T.said(), 1)
  vim.cmd('normal! G')
  T.same('the last line', T.marked(vim.fn.winline()), { { 'resume' } })
end)

T.test('a buffer that is unloaded or wiped while it is searched', function()
  for _, command in ipairs({ 'bunload!', 'bwipeout!', 'bdelete!' }) do
    vim.cmd('new')
    local lines = {}
    for i = 1, 50000 do
      lines[i] = 'some resume of a longer line'
    end
    api.nvim_buf_set_lines(0, 0, -1, false, lines)
    local buf = api.nvim_get_current_buf()
    vim.cmd('messages clear')
    vim.cmd('Colfind! resume')
    vim.cmd('redraw')
    vim.wait(3)
    vim.cmd(command .. buf)
    vim.wait(50)
    vim.cmd('redraw')
    T.same('what is said', T.said(), { '' })
  end
end)

T.test('what fails is told once, and marks no more', function()
  T.lines('resume', 'resume')
  local library = require('colfind.library')
  local all_in = library.all_in
  library.all_in = function()
    error('a fault of a test')
  end
  vim.cmd('messages clear')
  vim.cmd('Colfind! resume')
  T.same('what is marked', T.marked(1, 2), { {}, {} })
  vim.wait(50)
  library.all_in = all_in
  T.same('lines that were said', #T.said(), 1)
  assert(vim.v.warningmsg:find('^colfind: it has failed, and marks no more: .*a fault of a test$'), vim.v.warningmsg)
  vim.cmd('Colfind! resume')
  T.same('what is marked then', T.marked(1, 2), { { 'resume' }, { 'resume' } })
end)

T.test('long messages ask for no ENTER', function()
  T.lines('resume')
  vim.g.colfind_table = '/none/' .. ('long'):rep(40)
  vim.cmd('messages clear')
  vim.cmd('Colfind resume')
  local said = T.said()
  assert(#said == 1 and #said[1] <= vim.v.echospace and said[1]:find('^colfind: the table: /none/long.*%.%.%..*No such file'), said[1])
  T.same('all of it', vim.v.warningmsg, ('colfind: the table: %s: No such file or directory'):format(vim.g.colfind_table))
end)

T.done()
