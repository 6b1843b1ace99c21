-- What the tests ask of Neovim: what is marked on the screen, what was said. A test has a line `ok NAME`, `FAILED NAME: why` or
-- `skipped NAME: what is lacking`.
local T = {}
local api = vim.api

T.letters = vim.env.REPOSITORY .. '/docs/example/letters.txt'
T.cldr = '/usr/share/unicode/cldr/common/uca/allkeys_CLDR.txt'
T.program = vim.env.REPOSITORY .. '/crates/colfind/out/colfind'

local function print_line(line)
  io.stdout:write(line .. '\n')
  io.stdout:flush()
end

function T.same(what, got, wanted)
  if not vim.deep_equal(got, wanted) then
    error(('%s is\n%s\nnot\n%s'):format(what, vim.inspect(got), vim.inspect(wanted)), 2)
  end
end

-- The same of two long lists, of which the first difference is told.
function T.same_list(what, got, wanted)
  for i = 1, math.max(#got, #wanted) do
    T.same(('%s, of %d not %d, at %d'):format(what, #got, #wanted, i), got[i], wanted[i])
  end
end

function T.skip(lack)
  error({ lack = lack }, 0)
end

-- A test of its own, in an empty buffer of one window, with the small table.
function T.test(name, body)
  vim.cmd('silent! %bwipeout! | silent! only! | silent! tabonly! | messages clear')
  for _, option in ipairs({ 'tailor', 'strength', 'variable', 'library' }) do
    vim.g['colfind_' .. option] = nil
  end
  vim.g.colfind_table = T.letters
  require('colfind').clear()
  local good, why = xpcall(body, function(fault)
    return type(fault) == 'table' and fault or debug.traceback(fault, 2)
  end)
  local lack = type(why) == 'table' and why.lack
  print_line(good and 'ok ' .. name or lack and ('skipped %s: %s'):format(name, lack) or ('FAILED %s: %s'):format(name, why))
end

-- Takes the table of all of Unicode, and needs it.
function T.with_cldr()
  if vim.fn.filereadable(T.cldr) == 0 then
    T.skip('unicode-cldr-core')
  end
  vim.g.colfind_table = T.cldr
end

function T.lines(...)
  api.nvim_buf_set_lines(0, 0, -1, false, { ... })
  api.nvim_win_set_cursor(0, { 1, 0 })
end

-- How a marked cell looks: that of a mark of a test.
local function attribute()
  local space, top = api.nvim_create_namespace('test'), vim.fn.line('w0')
  api.nvim_buf_set_extmark(0, space, top - 1, 0, { virt_text = { { 'x', 'Colfind' } }, virt_text_pos = 'overlay', priority = 9999 })
  vim.cmd('redraw')
  local place = vim.fn.screenpos(0, top, 1)
  local found = vim.fn.screenattr(place.row, place.col)
  api.nvim_buf_clear_namespace(0, space, 0, -1)
  vim.cmd('redraw')
  return found
end

local marked

-- The marked parts of the rows of the screen from one to another, a list for each.
function T.marked(first, last)
  marked = marked or attribute()
  vim.cmd('redraw')
  local rows = {}
  for row = first, last or first do
    local parts, inside = {}, false
    for column = 1, vim.o.columns do
      local is_marked = vim.fn.screenattr(row, column) == marked
      if is_marked and not inside then
        parts[#parts + 1] = ''
      end
      if is_marked then
        parts[#parts] = parts[#parts] .. vim.fn.screenstring(row, column)
      end
      inside = is_marked
    end
    rows[#rows + 1] = parts
  end
  return rows
end

-- The search of the current buffer, when it has come to the end.
function T.finished()
  local marks = require('colfind.marks')
  assert(vim.wait(20000, function()
    return marks.scan(api.nvim_get_current_buf()).is_finished
  end, 1), 'the search does not end')
  return marks.scan(api.nvim_get_current_buf())
end

-- The ranges of a search.
function T.ranges(scan)
  local found = {}
  for i = 0, scan.stream.count - 1 do
    found[#found + 1] = ('%d:%d'):format(scan.stream:range(i))
  end
  return found
end

-- What the program finds in the text of the current buffer, at strength 1.
function T.program_finds(pattern)
  if vim.fn.executable(T.program) == 0 then
    T.skip('the built program')
  end
  local name = vim.fn.tempname()
  vim.fn.writefile(api.nvim_buf_get_lines(0, 0, -1, false), name, 'b')
  vim.fn.writefile({ '' }, name, 'ab')
  local printed = vim.fn.systemlist({ T.program, '--table', vim.g.colfind_table, '--strength', '1', '--', pattern, name })
  vim.fn.delete(name)
  return printed
end

function T.said()
  return vim.split(vim.fn.execute('messages'):gsub('^\n', ''), '\n')
end

function T.cursor()
  return api.nvim_win_get_cursor(0)
end

-- Ends Neovim.
function T.done()
  vim.cmd('qall!')
end

return T
