-- 5 MB: how long it takes until what is seen is marked, and how long one piece of work keeps the user waiting. Each time is the least of
-- several, for other programs may run.
local T = dofile(vim.env.TESTS .. '/helper.lua')
local api = vim.api
local MOST = 20 -- milliseconds
local BYTES = 5e6
local WORDS = { 'résumé', 'resume', 'line', 'of', 'words', 'русский', 'текст', 'ภาษา', 'history', 'some', 'and', 'e', 'more', 'my' }

local function now()
  return vim.loop.hrtime() / 1e6
end

-- Fails where a time is not below the most that is let in.
local function below(most, what, milliseconds)
  if vim.env.TIMES then
    io.stdout:write(('%s: %.1f ms\n'):format(what, milliseconds))
  end
  assert(milliseconds < most, ('%s takes %.1f ms, which is not below %d'):format(what, milliseconds, most))
end

-- The least time of some tries of a call, each with what is typed meanwhile served behind it.
local function least(tries, call)
  local found = math.huge
  for try = 1, tries do
    local began = now()
    call(try)
    found = math.min(found, now() - began)
    vim.wait(20)
  end
  return found
end

-- A buffer of BYTES, its lines made of words; its end is seen.
local function fill()
  math.randomseed(1)
  local lines, bytes = {}, 0
  while bytes < BYTES do
    local parts = {}
    for i = 1, 12 do
      parts[i] = WORDS[math.random(#WORDS)]
    end
    lines[#lines + 1] = table.concat(parts, ' ')
    bytes = bytes + #lines[#lines] + 1
  end
  api.nvim_buf_set_lines(0, 0, -1, false, lines)
  vim.cmd('normal! G')
  vim.cmd('redraw')
end

-- The processor time of Neovim.
local function worked()
  local usage = vim.loop.getrusage()
  return (usage.utime.sec + usage.stime.sec) * 1000 + (usage.utime.usec + usage.stime.usec) / 1000
end

-- The least, of several searches of a buffer, of the most work between two calls of a timer: so long a key waits. It is counted as
-- processor time, for in each search another program may have its turn.
local function longest_piece(pattern)
  local found = math.huge
  for _ = 1, 5 do
    vim.cmd('Colfind! x')
    vim.cmd('Colfind! ' .. pattern)
    local timer, last, most = vim.loop.new_timer(), worked(), 0
    timer:start(0, 1, function()
      most, last = math.max(most, worked() - last), worked()
    end)
    T.finished()
    timer:close()
    found = math.min(found, most)
  end
  return found
end

T.test('what is seen at the end of 5 MB', function()
  T.with_cldr()
  fill()
  below(500, 'the table', least(1, function()
    vim.cmd('Colfind! x')
  end))
  for n = 1, 6 do
    local typed = ('resume'):sub(1, n)
    below(MOST, typed, least(5, function()
      vim.cmd('ColfindClear')
      vim.cmd('Colfind! ' .. typed)
      vim.cmd('redraw')
    end))
  end
  local _, wanted = table.concat(vim.fn.getline(vim.fn.line('w0'), '$')):gsub('r.-sum.', '')
  local rows, got = T.marked(1, vim.fn.winline()), 0
  for _, row in ipairs(rows) do
    got = got + #row
  end
  T.same('matches that are seen', got, wanted)
end)

T.test('a search of 5 MB', function()
  T.with_cldr()
  fill()
  below(MOST, 'a piece', longest_piece('resume'))
  vim.cmd('Colfind! x')
  local began = worked()
  vim.cmd('Colfind! resume')
  T.finished()
  below(1000, 'a whole search', worked() - began)
  T.same_list('the ranges', T.ranges(T.finished()), T.program_finds('resume'))
end)

T.test('a change at the end of 5 MB', function()
  T.with_cldr()
  fill()
  vim.cmd('Colfind! e')
  T.finished()
  below(MOST, 'a change', least(20, function()
    vim.cmd('normal! Ae')
    vim.cmd('redraw')
  end))
end)

T.test('5 MB in one line', function()
  T.with_cldr()
  T.lines(('some resume e '):rep(BYTES / 14))
  vim.cmd('Colfind! e')
  local scan = T.finished()
  T.same('matches', scan.stream.count, 4 * math.floor(BYTES / 14))
  T.same('the front', vim.list_slice(T.marked(1)[1], 1, 4), { 'e', 'e', 'e', 'e' })
  vim.cmd('normal! $')
  T.same('the end', vim.list_slice(T.marked(vim.fn.winline())[1], 1, 1), { 'e' })
  below(10 * MOST, 'a piece', longest_piece('e'))
end)

T.done()
