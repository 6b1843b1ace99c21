-- What the commands and mappings call: the pattern, its preview while it is typed, and what the user is told of it.
local grep = require('colfind.grep')
local jump = require('colfind.jump')
local library = require('colfind.library')
local marks = require('colfind.marks')
local say = require('colfind.say')
local words = require('colfind.words')
local api = vim.api
local M = {}

local current -- the pattern of the last :Colfind
local is_shown = false -- whether it is marked
local preview -- while :Colfind is typed: its text and pattern, the buffer, and the view to go back to

M.grep = grep.grep
M.complete = words.complete

-- Tells the fault of a text, once a :Colfind.
local function told_fault(scan)
  local fault = scan.stream.fault
  if not fault or scan.pattern.is_told then
    return false
  end
  scan.pattern.is_told = true
  say.fault(('line %d: %s'):format(jump.place_of(scan.buf, scan.stream.fault_at) + 1, fault))
  return true
end

local function show(pattern)
  current, is_shown = library.hold(pattern, current), true
  marks.show(pattern)
end

-- Jumps `count` matches forward (1) or backward (-1).
local function go(direction, count)
  local scan = marks.scan(api.nvim_get_current_buf())
  local said, highlight = jump.jump(scan, direction, count, current.text)
  if not said then
    vim.schedule(function() -- until then Neovim shows nothing
      say.say('Interrupted', 'WarningMsg')
    end)
  elseif not told_fault(scan) then
    say.say(said, highlight)
  end
end

-- Marks a pattern in all windows, and jumps to its next match, or stays. The last pattern stands for an empty one.
function M.find(text, stays)
  text = text == '' and current and current.text or text
  local pattern, why = library.pattern(text, current, true)
  if not pattern then
    return say.fault(why)
  end
  pattern.is_told = false
  show(pattern)
  if not stays then
    go(1, 1)
  end
end

-- Jumps `count` matches forward (1) or backward (-1), and marks the pattern if it was marked no more.
function M.step(direction, count)
  if not current then
    return say.say('E35: No previous pattern of :Colfind', 'ErrorMsg')
  end
  local pattern, why = library.pattern(current.text, current)
  if not pattern then
    return say.fault(why)
  end
  show(pattern)
  go(direction, count)
end

-- What a key does that jumps to matches: in a diff, or where there is no pattern, what it did before.
function M.press(key, direction)
  if vim.wo.diff or not current then
    vim.cmd('normal! ' .. vim.v.count1 .. key)
  else
    M.step(direction, vim.v.count1)
  end
end

-- Marks no more, until the next jump.
function M.clear()
  is_shown = false
  marks.show(nil)
end

-- Shows the first match behind the cursor, once it is known.
local function show_match(scan)
  if preview.is_there or preview.stays or not vim.o.incsearch then
    return
  end
  local index = jump.next_known(scan)
  if index then
    preview.is_there = true
    jump.go(scan, index, true)
    vim.cmd('redraw')
  end
end

local function after_piece(scan)
  local is_over = scan.is_finished and not scan.is_dropped
  if is_over then
    marks.redraw()
  end
  if preview and preview.pattern == scan.pattern and preview.buf == scan.buf then
    show_match(scan)
    vim.cmd('redraw')
  elseif is_over and scan.pattern == current and not preview then
    told_fault(scan)
  end
end

-- Marks the pattern of the command line as far as it is typed, else what was marked before.
function M.typed()
  local bang, text = vim.fn.getcmdline():match('^[%s:]*Colfind(!?)%s+(.*)$')
  if not preview and not text then
    return
  end
  preview = preview or { view = vim.fn.winsaveview(), buf = api.nvim_get_current_buf() }
  preview.text, preview.stays, preview.is_there = text, bang == '!', false
  preview.pattern = text and text ~= '' and library.pattern(text, current) or nil
  if text == '' then
    library.prepare()
  end
  vim.fn.winrestview(preview.view)
  marks.show(preview.pattern or not text and is_shown and current or nil)
  vim.cmd('redraw')
end

-- The command line is left: what was there before is there again. The command, if it is run, comes then.
function M.end_typing()
  if preview then
    vim.fn.winrestview(preview.view)
    preview = nil
    if vim.v.event.abort then
      marks.show(is_shown and current or nil)
    end
  end
end

marks.start(after_piece, function(why)
  preview, is_shown = nil, false
  say.fault('it has failed, and marks no more: ' .. why)
end)

return M
