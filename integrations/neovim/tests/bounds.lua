-- What is kept, and how much of it.
local T = dofile(vim.env.TESTS .. '/helper.lua')
local library = require('colfind.library')
local ffi = require('ffi')

local function is_freed(handle)
  return ffi.cast('uintptr_t', handle.at) == 0
end

T.test('a pattern is freed when nobody holds it', function()
  T.lines('resume', 'me')
  vim.cmd('Colfind! resume')
  local shown, before = library.pattern('resume'), nil
  for i = 1, 20 do
    local made = library.pattern(('e'):rep(i))
    T.same('the one before is freed', before and is_freed(before.handle) and is_freed(before.search), before and true)
    before = made
  end
  T.same('the one that is shown is not', { is_freed(shown.handle), T.marked(1, 2) }, { false, { { 'resume' }, {} } })
  vim.cmd('Colfind! me')
  T.same('it is, when another is', { is_freed(shown.handle), T.marked(1, 2) }, { true, { { 'me' }, { 'me' } } })
  T.same('matches', T.finished().stream.count, 2)
end)

T.test('a list is made to its end whatever is typed meanwhile', function()
  T.lines(unpack(vim.split(('resume\n'):rep(5000), '\n')))
  vim.cmd('ColfindGrep resume')
  vim.cmd('Colfind! e')
  for i = 1, 20 do
    library.pattern(('m'):rep(i))
    vim.wait(1)
  end
  assert(vim.wait(20000, function()
    return #vim.fn.getqflist() == 5000
  end, 1), #vim.fn.getqflist())
end)

T.test('four tables are kept', function()
  local file, reads = require('colfind.file'), {}
  local read = file.read
  file.read = function(name, ...)
    reads[#reads + 1] = name:match('%d$')
    return read(name, ...)
  end
  local folder = vim.fn.tempname()
  vim.fn.mkdir(folder)
  for _, number in ipairs({ 1, 2, 3, 4, 2, 5, 2, 3, 4, 1, 5 }) do
    vim.g.colfind_table = folder .. '/' .. number
    vim.fn.writefile(vim.fn.readfile(T.letters), vim.g.colfind_table)
    library.pattern('resume')
  end
  file.read = read
  T.same('what was read', table.concat(reads, ' '), '1 2 3 4 5 1 5')
end)

-- Shows so many buffers one after another, each with lines, in one window: how many of their searches are kept.
local function kept(buffers, ...)
  vim.cmd('Colfind! resume')
  local scans, count = {}, 0
  for i = 1, buffers do
    vim.cmd('enew! | setlocal bufhidden=hide')
    T.lines(...)
    scans[i] = T.finished()
  end
  for _, scan in ipairs(scans) do
    count = count + (is_freed(scan.stream.search) and 0 or 1)
  end
  T.same('the last one', is_freed(scans[buffers].stream.search), false)
  return count
end

T.test('searches of buffers that no window shows', function()
  local few = kept(300, 'resume')
  assert(few > 200 and few <= 257, few)
end)

T.test('large ones', function()
  local few = kept(20, unpack(vim.split(('resume\n'):rep(6000), '\n')))
  assert(few > 4 and few <= 10, few)
  T.same('the first buffer, again', T.finished().stream.count, 6000)
end)

T.test('a text has so many matches', function()
  local lines = {}
  for i = 1, 8500 do
    lines[i] = ('e'):rep(1000)
  end
  vim.api.nvim_buf_set_lines(0, 0, -1, false, lines)
  vim.cmd('messages clear')
  vim.cmd('Colfind! e')
  T.same('matches', T.finished().stream.count, 8388608)
  T.same('what is said', T.said(), { 'colfind: line 8389: 8388608 matches, and those behind are left out' })
end)

T.done()
