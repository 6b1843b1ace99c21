-- Names, patterns and texts of somebody else: each is itself, none acts.
local T = dofile(vim.env.TESTS .. '/helper.lua')
local api, uv = vim.api, vim.loop

local NAMES = {
  'x`touch pwned`', 'a%b', 'a#b', 'a b', '-n', 'a\nb', 'a*b', '[x]', '$HOME', '~', '~root', '%', '#', '##', 'a|b', 'a"b', "a'b",
  'a\\b', 'a\\{b', '{a,b}',
  '<cword>', '`=writefile([],"pwned")`', '$(touch pwned)', ';touch pwned', '+touch', 'e\27]0;title\7', 'é\194\155', 'b\255',
}
local folder = uv.fs_realpath(vim.fn.fnamemodify(vim.fn.tempname(), ':h')) .. '/hostile'

local function write(name, text)
  local file = assert(io.open(name, 'wb'))
  file:write(text)
  file:close()
end

-- A new folder to work in, with the files of a table by their names.
local function fresh(files)
  vim.cmd('cd /')
  vim.fn.delete(folder, 'rf')
  vim.fn.mkdir(folder, 'p')
  vim.cmd('cd ' .. folder)
  for name, text in pairs(files or {}) do
    vim.fn.mkdir(name:match('^(.*)/') or '.', 'p')
    write(name, text)
  end
end

-- The names below the folder, in order.
local function listed()
  local found = {}
  for name in uv.fs_scandir_next, uv.fs_scandir(folder) do
    found[#found + 1] = name
  end
  return found
end

-- A name as it is typed.
local function typed(name)
  return (name:gsub('[ \t\\*?%[{~%%#]', '\\%0'))
end

-- The names, from the folder on, and the lines that the list has, once the search has said that it is over.
local function found(argument)
  vim.cmd('messages clear')
  vim.g.argument = argument
  vim.cmd([[execute 'ColfindGrep' g:argument]])
  assert(vim.wait(20000, function()
    return T.said()[1] ~= ''
  end, 1), 'the search does not end: ' .. argument)
  return vim.tbl_map(function(item)
    return ('%s:%d'):format(api.nvim_buf_get_name(item.bufnr):sub(#folder + 2), item.lnum)
  end, vim.fn.getqflist())
end

T.test('names of files', function()
  local files = {}
  for _, name in ipairs(NAMES) do
    files[name] = 'no\nhi\n'
  end
  fresh(files)
  local before = listed()
  T.same('files', #before, #NAMES)
  for _, name in ipairs(NAMES) do
    T.same('by its name', found('hi ' .. typed(name)), { name .. ':2' })
    vim.cmd('cc 1')
    T.same('where :cc leads', { api.nvim_buf_get_name(0), T.cursor() }, { folder .. '/' .. name, { 2, 0 } })
    T.same('as the buffer', found('hi'), { name .. ':2' })
    T.same('as the buffer, by its sign', found('hi %'), { name .. ':2' })
    vim.cmd('enew')
    T.same('as the buffer before', found('hi #'), { name .. ':2' })
    vim.cmd('copen | cclose | silent! %bwipeout!')
  end
  local all = vim.tbl_map(function(name)
    return name .. ':2'
  end, before)
  T.same('by a pattern', found('hi *'), all)
  T.same('what is there', listed(), before)
end)

T.test('random names and words', function()
  math.randomseed(101)
  local signs = {
    '`', '%', '#', '*', '?', '[', ']', '{', '}', ',', '\\', '~', '$', ' ', '\t', '\n', '|', '"', "'", '!', '<', '>', '(', ')', '^', '.',
    '-', '+', '=', ';', '&', ':', '@', 'a', 'B', 'touch', 'pwned', 'é', '\255', '\27', '\1',
  }
  local function some(most)
    local parts = {}
    for i = 1, math.random(most) do
      parts[i] = signs[math.random(#signs)]
    end
    return table.concat(parts)
  end
  fresh()
  local wanted = {}
  for _ = 1, 100 do
    local name = some(5)
    if name ~= '.' and name ~= '..' and not wanted[name] then
      write(name, 'hi')
      T.same('by its name', found('hi ' .. typed(name)), { name .. ':1' })
      wanted[name] = true
    end
  end
  local names = listed()
  for _ = 1, 300 do
    local words = some(8)
    found('/hi/ ./' .. words)
    assert(not vim.v.warningmsg:find('%.lua:'), vim.v.warningmsg)
    vim.fn.getcompletion('ColfindGrep hi ' .. words, 'cmdline')
  end
  T.same('what is there', listed(), names)
end)

T.test('a name like an address', function()
  fresh({ ['ftp:/h/x'] = 'no\nhi\n' })
  vim.cmd('runtime plugin/netrwPlugin.vim')
  for _, name in ipairs({ 'ftp://h/x', 'ftp:/h/x', 'ftp:/*/x' }) do
    T.same(name, found('hi ' .. name), { 'ftp:/h/x:2' })
    vim.cmd('cc 1')
    T.same('where :cc leads', { api.nvim_buf_get_name(0), T.cursor() }, { folder .. '/ftp:/h/x', { 2, 0 } })
    vim.cmd('silent! %bwipeout!')
  end
end)

T.test('words that Neovim or a shell would expand', function()
  fresh({ ['x'] = 'hi\n' })
  vim.cmd('edit x')
  for _, word in ipairs({
    '`touch\\ pwned`', '`=1`', '$(touch\\ pwned)', '%:p', '#1', '<cword>', '$HOME/x', '~root/x', '{`touch\\ pwned`,y}*',
  }) do
    T.same(word, found('hi ' .. word), {})
    T.same('what is said of ' .. word, vim.v.warningmsg,
      ('colfind: 0 matches, 1 fault: %s: No such file or directory'):format((word:gsub('\\ ', ' '))))
  end
  T.same('what is there', listed(), { 'x' })
end)

T.test('patterns are taken as they are typed', function()
  fresh({ x = '50% a# a|b a"b a\'b a`b` -n %% $HOME ~ <cword> a\\b\n#include\n' })
  vim.cmd('edit x')
  for _, pattern in ipairs({
    '50%', 'a#', 'a|b', 'a"b', "a'b", 'a`b`', '-n', '%%', '$HOME', '~', '<cword>', 'a\\b', '#include', '/a|b/', '"50%"', '`a`b``',
  }) do
    T.same(pattern, found(pattern .. ' x'), { pattern == '#include' and 'x:2' or 'x:1' })
    T.same('the title', vim.fn.getqflist({ title = 0 }).title, (':ColfindGrep %s x'):format(pattern))
    vim.cmd('Colfind! ' .. (pattern:match('^[/"`](.*)[/"`]$') or pattern))
    T.same('matches of ' .. pattern, T.finished().stream.count, 1)
  end
end)

T.test('the table and its tailor', function()
  local text = table.concat(vim.fn.readfile(T.letters), '\n') .. '\n'
  fresh({ ['t`touch pwned`'] = text, ['home/~/letters'] = text, ['t%'] = '' })
  T.lines('résumé')
  vim.env.HOME = folder .. '/home'
  for _, name in ipairs({ 't`touch pwned`', '~/~/letters' }) do
    vim.g.colfind_table, vim.g.colfind_tailor = name, 't%'
    vim.cmd('Colfind! resume')
    T.same('matches by ' .. name, T.finished().stream.count, 1)
  end
  for _, name in ipairs({ '`touch pwned`', '$HOME', '%', 'e\27[m\nforged\226\128\174' }) do
    vim.g.colfind_table, vim.g.colfind_tailor = T.letters, name
    vim.cmd('Colfind! resume')
    T.same('what is said', vim.v.warningmsg,
      ('colfind: the table: %s: No such file or directory'):format((name:gsub('[\27\n]', '?'):gsub('\226\128\174', '?'))))
  end
  T.same('what is there', listed(), { 'home', 't%', 't`touch pwned`' })
end)

T.test('patterns of names', function()
  fresh({
    ['a.txt'] = 'hi', ['b.md'] = 'hi', ['.hidden.md'] = 'hi', ['s/c.md'] = 'hi', ['s/t/d.md'] = 'hi', ['s/t/[d].md'] = 'hi',
    ['.git/e.md'] = 'hi', ['*.txt'] = 'hi', ['z/x.txt'] = 'hi', ['a\nb.txt'] = 'hi', ['é.c'] = 'hi',
  })
  uv.fs_symlink(folder, folder .. '/s/t/up')
  uv.fs_symlink('../a.txt', folder .. '/z/link.txt')
  uv.fs_symlink('none', folder .. '/z/none.txt')
  vim.env.HOME = folder .. '/s'
  for _, case in ipairs({
    { '*.txt', '*.txt', 'a\nb.txt', 'a.txt' }, { '\\*.txt', '*.txt' }, { '[ab].*', 'a.txt', 'b.md' },
    { '**/*.md', 'b.md', 's/c.md', 's/t/[d].md', 's/t/d.md' }, { '**/t/**', 's/t/[d].md', 's/t/d.md' }, { '[^ab].*', '*.txt', 'é.c' },
    { '*/*.txt', 'a.txt', 'z/x.txt' }, -- the first by a link: it is the buffer of what that leads to
    { '*.{md,c}', 'b.md', 'é.c' }, { '?.md', 'b.md' }, { '?.c', 'é.c' }, { '.*.md', '.hidden.md' }, { '.git/*', '.git/e.md' },
    { '~/t/d*', 's/t/d.md' }, { '~/c.md', 's/c.md' }, { 's/t/[d].md', 's/t/d.md' }, { 's/t/\\[d].md', 's/t/[d].md' }, { './b.md', 'b.md' },
    { 's/../b.*', 'b.md' }, { folder .. '/b*', 'b.md' }, { 'b.md b.md ./b.md b*', 'b.md' }, { 's/*/up/b*', 'b.md' }, { 'B*' }, { '*.none' },
    { 'a\\nb*' }, { '\\\\*' }, { '\\zs*' }, { '[*' }, { '{a*' },
  }) do
    local wanted = vim.tbl_map(function(name)
      return name .. ':1'
    end, vim.list_slice(case, 2))
    T.same(case[1], found('hi ' .. case[1]), wanted)
  end
  T.same('what is said', vim.v.warningmsg, 'colfind: 0 matches, 1 fault: {a*: No such file or directory')
  vim.o.wildignore = '*/t/d*,s/t/[[]*,a.*,[*'
  T.same('but for wildignore', found('hi **/*.md a.* *.txt'), { 'b.md:1', 's/c.md:1', '*.txt:1', 'a\nb.txt:1' })
  T.same('by its name', found('hi a.txt'), { 'a.txt:1' })
  vim.o.wildignore = ''
end)

T.test('what is no file', function()
  fresh({ ['a.txt'] = 'hi', ['b/c.txt'] = 'hi' })
  vim.fn.system({ 'mkfifo', 'fifo' })
  vim.fn.system({ 'truncate', '-s', '1073741825', 'large' })
  local writer = vim.fn.jobstart({ 'sh', '-c', 'while sleep 5; do : <> fifo; done' }) -- so that who waits goes on
  T.same('the others are searched', found('hi b fifo large /dev/tty none a.txt/ ~ a.txt'), { 'a.txt:1' })
  T.same('what is said', vim.v.warningmsg, 'colfind: 1 matches, 7 faults: b: Is a directory')
  local no_file = 'no file of at most %d MB'
  for name, why in pairs({ fifo = no_file, large = no_file, ['/'] = 'Is a directory', ['b/'] = 'Is a directory' }) do
    found('hi ' .. name)
    T.same('what is said', vim.v.warningmsg, ('colfind: 0 matches, 1 fault: %s: %s'):format(name, why:format(1024)))
    vim.g.colfind_table = name
    vim.cmd('Colfind hi')
    T.same('of a table', vim.v.warningmsg, ('colfind: the table: %s: %s'):format(name, why:format(256)))
    vim.g.colfind_table = T.letters
  end
  T.same('a pattern takes files', found('hi *'), { 'a.txt:1' })
  local file, stat = require('colfind.file'), uv.fs_stat
  uv.fs_stat = function() -- what was looked at just before something else took its place
    return { type = 'file', size = 1 }
  end
  local read = { { file.read('fifo', 'fifo', 1) }, { file.read('/dev/zero', 'zero', 1) }, { file.read('b', 'b', 1) } }
  uv.fs_stat = stat
  T.same('what is read', read, { { '' }, { nil, 'zero: no file of at most 1 MB' }, { nil, 'b: Illegal operation on a directory' } })
  vim.fn.jobstop(writer)
end)

T.test('a folder that can not be listed is told', function()
  fresh({ ['a.txt'] = 'hi' })
  for _ = 1, 20 do -- more than a name may have, in parts that it may
    local name = ('long'):rep(60)
    assert(uv.fs_mkdir(name, 448))
    assert(uv.chdir(name))
  end
  uv.chdir(folder)
  vim.cmd('cd ' .. folder)
  T.same('what is found', found('hi **/*.txt'), { 'a.txt:1' })
  assert(vim.v.warningmsg:find('^colfind: 1 matches, 1 fault: long.*/: Name too long$'), vim.v.warningmsg)
  vim.fn.system({ 'rm', '-r', folder })
end)

T.test('texts that would act on a screen', function()
  fresh({
    zero = 'a\0hi\0\n\0\0\nhi\0', signs = '\tx\27]0;title\7 hi \194\155 \226\128\174 \226\128\168 é \255\n', b = 'hi',
    ['e\27c\n\216\156'] = 'hi x\255',
  })
  T.same('zero bytes', found('hi zero b'), { 'zero:1', 'zero:3', 'b:1' })
  local function texts()
    return vim.tbl_map(function(item)
      return item.text
    end, vim.fn.getqflist())
  end
  T.same('texts', texts(), { 'a?hi?', 'hi?', 'hi' })
  vim.cmd('silent edit ++enc=utf-8 ++bad=keep signs')
  for _, words in ipairs({ 'hi', 'hi signs' }) do
    found(words)
    T.same('texts', texts(), { '\tx?]0;title? hi ? ? ? é \255' })
  end
  found('hi e*')
  T.same('what is said', vim.v.warningmsg,
    'colfind: 1 matches, 1 fault: e?c??: fault 31 at 4: the text is not UTF-8 here, or ends amid a character')
  found('h\27\n\tb')
  T.same('what is said', T.said(), { 'E480: No match: h??' })
  T.same('the title', vim.fn.getqflist({ title = 0 }).title, ':ColfindGrep h??\tb')
  vim.cmd('messages clear')
  T.lines('hi')
  vim.cmd([[execute "Colfind h\e\n\u202e"]])
  T.same('what is said', T.said(), { 'E486: Pattern not found: h???' })
  T.lines('a\0b', 'hi\0hi')
  T.same('in a buffer', #found('hi'), 2)
  vim.cmd('copen | redraw | cclose')
end)

T.test('words are completed by names', function()
  fresh({
    ['a b'] = '', ['a`touch pwned`'] = '', ['a%'] = '', ['%a'] = '', ['a*'] = '', ['a\nb'] = '', ['.a'] = '', ['s/ü[1]'] = '',
    ['s/t/x'] = '',
  })
  vim.env.HOME = folder .. '/s'
  for line, wanted in pairs({
    ['ColfindGrep hi '] = { '\\%a', 'a\\ b', 'a%', 'a\\*', 'a`touch\\ pwned`', 's/' },
    ['ColfindGrep hi a'] = { 'a\\ b', 'a%', 'a\\*', 'a`touch\\ pwned`' }, ['ColfindGrep  a'] = {},
    ['ColfindGrep hi a\\ '] = { 'a\\ b' }, ['ColfindGrep hi .'] = { '.a' }, ['ColfindGrep /x y/ x s/'] = { 's/t/', 's/ü\\[1]' },
    ['ColfindGrep hi ~/'] = { '~/t/', '~/ü\\[1]' }, ['ColfindG hi ' .. folder .. '/s/t/'] = { folder .. '/s/t/x' },
    ['ColfindGrep a'] = {}, ['ColfindGrep hi none/'] = {},
    ['ColfindGrep hi `touch\\ pwned`'] = {}, ['ColfindGrep hi $(touch\\ pwned)'] = {},
  }) do
    local got = vim.fn.getcompletion(line, 'cmdline')
    table.sort(got)
    table.sort(wanted)
    T.same(line, got, wanted)
  end
  T.same('what is there', #listed(), 8)
end)

T.test('a list that is full', function()
  fresh({ a = ('hi '):rep(60000), b = ('hi '):rep(60000), c = 'hi' })
  T.same('matches', #found('hi *'), 100000)
  T.same('what is said', T.said(), { '100000 matches, and more that are left out in 2 of 2 files' })
  T.same('matches', #found('hi a c'), 60001)
end)

vim.cmd('cd /')
vim.fn.delete(folder, 'rf')
T.done()
