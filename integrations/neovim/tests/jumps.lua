-- Where the jumps lead, and what is said.
local T = dofile(vim.env.TESTS .. '/helper.lua')

local function jumps(...)
  for _, step in ipairs({ ... }) do
    vim.cmd('messages clear')
    vim.cmd('normal ' .. step[1])
    T.same('the cursor behind ' .. step[1], T.cursor(), step[2])
    if step[3] then
      T.same('what is said', T.said(), { step[3] })
    end
  end
end

T.test('next, previous and counts', function()
  T.lines('a resume, résumé', 'none', 'resume', '', '  resume')
  vim.cmd('Colfind resume')
  T.same('what is said', T.said(), { 'resume  [1/4]' })
  jumps({ ']c', { 1, 10 }, 'resume  [2/4]' }, { '2]c', { 5, 2 }, 'resume  [4/4]' },
    { ']c', { 1, 2 }, 'search hit BOTTOM, continuing at TOP  [1/4]' }, { '[c', { 5, 2 }, 'search hit TOP, continuing at BOTTOM  [4/4]' },
    { '3[c', { 1, 2 }, 'resume  [1/4]' }, { '9]c', { 1, 10 }, 'search hit BOTTOM, continuing at TOP  [2/4]' }, { '3G0[c', { 1, 10 } })
end)

T.test('without wrapping', function()
  T.lines('resume', 'resume')
  vim.o.wrapscan = false
  vim.cmd('Colfind resume')
  jumps({ ']c', { 2, 0 }, 'E385: search hit BOTTOM without match for: resume' }, { '[c', { 1, 0 } },
    { '[c', { 1, 0 }, 'E384: search hit TOP without match for: resume' })
  vim.o.wrapscan = true
end)

T.test('nothing is found, and no pattern', function()
  T.lines('resume')
  vim.cmd('Colfind bach')
  T.same('what is said', T.said(), { 'E486: Pattern not found: bach' })
  T.same('the cursor', T.cursor(), { 1, 0 })
end)

T.test('matches that overlap', function()
  T.lines('aaaa')
  vim.cmd('Colfind! aa')
  T.same('what is marked', T.marked(1), { { 'aaaa' } })
  jumps({ ']c', { 1, 1 } }, { ']c', { 1, 2 } }, { ']c', { 1, 0 } })
end)

T.test('a match at which the cursor can not stand', function()
  T.lines('re', 'none', 're', 'me')
  vim.g.colfind_strength = 3
  require('colfind').find('\n', true)
  jumps({ ']c', { 1, 1 } }, { ']c', { 2, 3 } }, { ']c', { 3, 1 } }, { ']c', { 4, 1 } }, { ']c', { 1, 1 } }, { '[c', { 4, 1 } })
end)

T.test('behind operators, and in Visual mode', function()
  T.lines('a resume b résumé c')
  vim.cmd('Colfind! resume')
  vim.cmd('normal d]c')
  T.same('the line', vim.fn.getline(1), 'resume b résumé c')
  vim.cmd('normal d]c')
  T.same('the line', vim.fn.getline(1), 'résumé c')
  vim.cmd('normal! $')
  vim.cmd('normal v[cy')
  T.same('what is copied', vim.fn.getreg('"'), 'résumé c')
end)

T.test('the place before is kept', function()
  T.lines('one', 'two', 'resume')
  vim.cmd('normal! 2G')
  vim.cmd('Colfind resume')
  jumps({ '``', { 2, 0 } }, { '2]c', { 3, 0 } })
end)

T.test('a diff keeps its keys, and so does a buffer without a pattern', function()
  T.lines('same', 'resume', 'same', 'one')
  vim.cmd('Colfind! resume')
  vim.cmd('diffthis | new')
  T.lines('same', 'resume', 'same', 'two')
  vim.cmd('diffthis')
  jumps({ ']c', { 4, 0 } })
  vim.cmd('diffoff!')
  jumps({ ']c', { 2, 0 } })
end)

T.test('mappings of the user are left', function()
  T.same(']d', vim.fn.maparg(']d', 'n'), '')
  vim.keymap.set('n', ']d', '<Plug>(colfind-next)')
  T.lines('a', 'resume')
  vim.cmd('Colfind! resume')
  jumps({ ']d', { 2, 0 } })
end)

T.test('between jumps the buffer changes', function()
  T.lines('resume', 'resume', 'resume')
  vim.cmd('Colfind! resume')
  jumps({ ']c', { 2, 0 } })
  vim.cmd('silent 3delete | 1')
  jumps({ ']c', { 2, 0 }, 'resume  [2/2]' }, { ']c', { 1, 0 }, 'search hit BOTTOM, continuing at TOP  [1/2]' })
end)

T.done()
