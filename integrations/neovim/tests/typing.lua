-- :Colfind as it is typed, in another Neovim that this one talks to.
local T = dofile(vim.env.TESTS .. '/helper.lua')

local child = vim.fn.jobstart({ 'nvim', '--embed', '--headless', '-n', '-i', 'NONE', '-u', vim.env.TESTS .. '/init.lua' }, { rpc = true })

local function ask(code, ...)
  return vim.rpcrequest(child, 'nvim_exec_lua', code, { ... })
end

local function type_keys(keys)
  vim.rpcrequest(child, 'nvim_input', keys)
  vim.wait(60)
end

-- The marked parts of the first rows, the cursor, and the mode.
local function looks(rows)
  return ask([[
    T = T or dofile(vim.env.TESTS .. '/helper.lua')
    return { T.marked(1, ...), vim.api.nvim_win_get_cursor(0), vim.api.nvim_get_mode().mode }
  ]], rows)
end

local function begin(...)
  ask([[
    T = T or dofile(vim.env.TESTS .. '/helper.lua')
    vim.cmd('silent! %bwipeout! | silent! only!')
    vim.g.colfind_table = T.letters
    T.lines(...)
    require('colfind').clear()
    T.marked(1)
    vim.cmd('messages clear')
  ]], ...)
end

T.test('it is marked as one types', function()
  begin('me, mé', 'ruse', 'résumé resume', 'res')
  type_keys(':Colfind r')
  T.same('r', looks(4), { { {}, { 'r' }, { 'r', 'r' }, { 'r' } }, { 2, 0 }, 'c' })
  type_keys('es')
  T.same('res', looks(4), { { {}, {}, { 'rés', 'res' }, { 'res' } }, { 3, 0 }, 'c' })
  type_keys('ume')
  T.same('resume', looks(4), { { {}, {}, { 'résumé', 'resume' }, {} }, { 3, 0 }, 'c' })
  type_keys('x')
  T.same('resumex', looks(4), { { {}, {}, {}, {} }, { 1, 0 }, 'c' })
  type_keys('<BS><CR>')
  T.same('behind ENTER', looks(4), { { {}, {}, { 'résumé', 'resume' }, {} }, { 3, 0 }, 'n' })
  T.same('what is said', ask('return T.said()'), { 'resume  [1/2]' })
end)

T.test('ESC leaves all as it was', function()
  begin('one', 'resume', 'me')
  type_keys(':Colfind! me<CR>')
  T.same('before', looks(3), { { {}, { 'me' }, { 'me' } }, { 1, 0 }, 'n' })
  type_keys(':Colfind resum')
  T.same('typed', looks(3), { { {}, { 'resum' }, {} }, { 2, 0 }, 'c' })
  type_keys('<Esc>')
  T.same('behind ESC', looks(3), { { {}, { 'me' }, { 'me' } }, { 1, 0 }, 'n' })
  type_keys(':ColfindClear<CR>:Colfind re')
  T.same('typed', looks(3), { { {}, { 're' }, {} }, { 2, 0 }, 'c' })
  type_keys('<C-U>')
  T.same('another command', looks(3), { { {}, {}, {} }, { 1, 0 }, 'c' })
  type_keys('<Esc>')
  T.same('behind ESC', looks(3), { { {}, {}, {} }, { 1, 0 }, 'n' })
end)

T.test('a fault says nothing while one types', function()
  begin('resume \255', 'résumé')
  type_keys(':Colfind <C-V>u0301')
  T.same('an accent', looks(2), { { {}, {} }, { 1, 0 }, 'c' })
  T.same('what is said', ask('return T.said()'), { '' })
  type_keys('<C-U>Colfind resume')
  T.same('a bad byte', looks(2), { { { 'resume' }, { 'résumé' } }, { 2, 0 }, 'c' })
  T.same('what is said', ask('return T.said()'), { '' })
  type_keys('<CR>')
  T.same('what is said', ask('return T.said()'), { 'colfind: line 1: fault 31 at 7: the text is not UTF-8 here, or ends amid a character' })
end)

T.test('without incsearch, and with !, the cursor stays', function()
  begin('one', 'resume')
  type_keys(':Colfind! resume')
  T.same('with !', looks(2), { { {}, { 'resume' } }, { 1, 0 }, 'c' })
  type_keys('<Esc>:set noincsearch<CR>:Colfind resume')
  T.same('without incsearch', looks(2), { { {}, { 'resume' } }, { 1, 0 }, 'c' })
  type_keys('<CR>:set incsearch<CR>')
  T.same('behind ENTER', looks(2), { { {}, { 'resume' } }, { 2, 0 }, 'n' })
end)

T.test('an operator with a jump is repeated by a dot', function()
  begin('')
  ask("vim.keymap.set({ 'n', 'o' }, ']d', '<Plug>(colfind-next)')")
  type_keys(':Colfind! resume<CR>')
  for _, case in ipairs({
    { 'd]c.', 'resume2 resume3 resume4' }, { 'd]d.', 'resume2 resume3 resume4' }, { 'd]c..', 'resume3 resume4' },
    { 'd2]c.', 'resume4' }, { '2d]c.', 'resume4' }, { 'd]c2.', 'resume3 resume4' }, { 'd]cu.', 'resume1 resume2 resume3 resume4' },
    { 'c]cx<Esc>w.', 'xresume1 xresume3 resume4' }, { '$d[c.', 'a resume1 resume2 4' }, { 'qqd]cq@q', 'resume2 resume3 resume4' },
    { 'v]cd.', 'me1 resume2 resume3 resume4' },
  }) do
    ask('T.lines(...)', 'a resume1 resume2 resume3 resume4')
    type_keys(case[1])
    T.same(case[1], ask('return vim.fn.getline(1)'), case[2])
  end
end)

vim.fn.chanclose(child)
T.done()
