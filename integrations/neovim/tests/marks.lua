-- What is marked.
local T = dofile(vim.env.TESTS .. '/helper.lua')
local api = vim.api
local E = 'e\204\129' -- e with an accent of its own

T.test('each spelling is marked', function()
  T.lines('my résumé, r' .. E .. 'sum' .. E .. ' x resume', '', 'RESUME', 'rescue')
  vim.cmd('Colfind resume')
  T.same('what is marked', T.marked(1, 4), { { 'résumé', 'r' .. E .. 'sum' .. E, 'resume' }, {}, {}, {} })
  T.same('the cursor', T.cursor(), { 1, 3 })
end)

T.test('strength and weighting are options', function()
  T.lines('résumé resume re-sume')
  vim.g.colfind_strength = 2
  vim.cmd('Colfind résumé')
  T.same('at strength 2', T.marked(1), { { 'résumé' } })
  vim.cmd('Colfind resume')
  T.same('at strength 2', T.marked(1), { { 'resume' } })
  vim.g.colfind_strength = 1
  vim.g.colfind_variable = 'shifted'
  vim.cmd('Colfind resume')
  T.same('shifted', T.marked(1), { { 'résumé', 'resume', 're-sume' } })
end)

T.test('scripts of CLDR', function()
  T.with_cldr()
  T.lines('Ёлка и ЁЛКА, елка', 'ภาษาไทย', 'विद्यालय में विद्या', '日本語 résumé RÉSUMÉ')
  for pattern, wanted in pairs({
    ['елка'] = { { 'Ёлка', 'ЁЛКА', 'елка' }, {}, {}, {} }, ['ไทย'] = { {}, { 'ไทย' }, {}, {} },
    ['विद्या'] = { {}, {}, { 'विद्या', 'विद्या' }, {} }, resume = { {}, {}, {}, { 'résumé', 'RÉSUMÉ' } },
    ['本'] = { {}, {}, {}, { '本' } },
  }) do
    vim.cmd('Colfind! ' .. pattern)
    T.same(pattern, T.marked(1, 4), wanted)
  end
end)

T.test('matches over lines', function()
  T.lines('re', 'sume x', 'res', '', 'ume')
  vim.g.colfind_variable = 'shifted'
  vim.g.colfind_table = vim.fn.tempname() -- with a newline that is variable
  vim.fn.writefile(vim.list_extend({ '000A ; [*0200.0020.0002]' }, vim.fn.readfile(T.letters)), vim.g.colfind_table)
  vim.cmd('Colfind! resume')
  T.finished()
  T.same('what is marked', T.marked(1, 5), { { 're' }, { 'sume' }, { 'res' }, {}, { 'ume' } })
end)

T.test('a buffer that changes', function()
  T.lines('none', 'resume')
  vim.cmd('Colfind! resume')
  T.same('before', T.marked(1, 3), { {}, { 'resume' }, {} })
  api.nvim_buf_set_lines(0, 0, 1, false, { 'a resume', 'more' })
  T.same('at once', T.marked(1, 3), { { 'resume' }, {}, { 'resume' } })
  T.finished()
  T.same('when it was searched', T.marked(1, 3), { { 'resume' }, {}, { 'resume' } })
  vim.cmd('let &undolevels = &undolevels') -- what follows is undone by itself
  vim.cmd('normal! 3GlxA résumé')
  T.same('the line that was changed', T.marked(3), { { 'résumé' } })
  vim.cmd('silent undo')
  T.same('undone', T.marked(1, 3), { { 'resume' }, {}, { 'resume' } })
  vim.cmd('silent %delete')
  T.same('emptied', T.marked(1, 2), { {}, {} })
end)

T.test('signs of the command line are signs of a pattern', function()
  T.lines('a|b "c", e%', 'a b')
  for pattern, wanted in pairs({
    ['a|b'] = { { 'a|b' }, {} }, ['"c"'] = { { '"c"' }, {} }, ['e%'] = { { 'e%' }, {} }, ['a b'] = { {}, { 'a b' } },
  }) do
    vim.cmd('Colfind! ' .. pattern)
    T.same(pattern, T.marked(1, 2), wanted)
  end
end)

T.test('two windows, and two buffers', function()
  T.lines('resume', 'one')
  vim.cmd('Colfind! resume')
  vim.cmd('split')
  local below = vim.fn.win_screenpos(2)[1]
  T.same('both', { T.marked(1)[1], T.marked(below)[1] }, { { 'resume' }, { 'resume' } })
  vim.cmd('enew')
  T.lines('x', 'résumé')
  T.same('both', { T.marked(2)[1], T.marked(below)[1] }, { { 'résumé' }, { 'resume' } })
  vim.cmd('ColfindClear')
  T.same('cleared', { T.marked(2)[1], T.marked(below)[1] }, { {}, {} })
  vim.cmd('Colfind!')
  T.same('again', { T.marked(2)[1], T.marked(below)[1] }, { { 'résumé' }, { 'resume' } })
end)

T.test('only what is seen has marks', function()
  local lines = {}
  for i = 1, 10000 do
    lines[i] = 'resume'
  end
  T.lines(unpack(lines, 1, 100))
  api.nvim_buf_set_lines(0, -1, -1, false, lines)
  vim.cmd('Colfind! resume')
  T.finished()
  T.same('what is marked', T.marked(1, 2), { { 'resume' }, { 'resume' } })
  local kept = 0
  for _, space in pairs(api.nvim_get_namespaces()) do
    kept = kept + #api.nvim_buf_get_extmarks(0, space, 0, -1, {})
  end
  T.same('marks that are kept', kept, 0)
end)

T.test('folds', function()
  T.lines('one', 'resume a', 'resume b', 'end', 'resume c')
  vim.cmd('2,4fold')
  vim.cmd('Colfind! resume')
  T.same('what is marked', T.marked(3), { { 'resume' } })
  vim.cmd('normal ]c')
  T.same('the fold is opened', { vim.fn.foldclosed(2), T.cursor() }, { -1, { 2, 0 } })
end)

T.test('lines that end with CR LF', function()
  local name = vim.fn.tempname()
  vim.fn.writefile({ 'a resume\r', 'résumé\r', '' }, name, 'b')
  vim.cmd('edit ' .. name)
  vim.cmd('Colfind! resume')
  T.same('as dos', { vim.o.fileformat, T.marked(1, 2) }, { 'dos', { { 'resume' }, { 'résumé' } } })
  vim.cmd('edit ++ff=unix')
  T.same('as unix', { vim.o.fileformat, T.marked(1, 2) }, { 'unix', { { 'resume' }, { 'résumé' } } })
  vim.cmd('normal G$[c')
  T.same('the cursor', T.cursor(), { 2, 0 })
end)

T.test('random texts, beside the program', function()
  math.randomseed(82)
  local parts = {
    'resume', 'résumé', 'r' .. E .. 'sum' .. E, 're', 'su', 'm', 'e', E, '\204\129', '\194\173', ' ', '-', 'ch', 'aa', 'Я', '\r',
  }
  for _, pattern in ipairs({ 'resume', 'e', 'aa', 'su', 'e-', 'ch' }) do
    local lines = {}
    for i = 1, 20 do
      local words = {}
      for j = 1, math.random(0, 12) do
        words[j] = parts[math.random(#parts)]
      end
      lines[i] = table.concat(words)
    end
    T.lines(unpack(lines))
    vim.cmd('Colfind! ' .. pattern)
    local early = T.marked(1, 20)
    T.same_list('the ranges of ' .. pattern, T.ranges(T.finished()), T.program_finds(pattern))
    T.same('what is marked of ' .. pattern, T.marked(1, 20), early)
  end
end)

T.done()
