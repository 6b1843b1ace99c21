-- The search of a whole buffer, from its beginning, in pieces. It has all ranges, in bytes of the lines with a newline behind each.
-- A buffer that has changed is searched anew.
local library = require('colfind.library')
local work = require('colfind.work')
local api = vim.api
local M = {}

local BYTES = 65536 -- of a piece
local UNSETTLED = 1024 -- before the end of what was searched ranges may wait: 31 code points and the longest string of a table are less
local QUIET = 100 -- milliseconds behind a change
local MOST_SCANS, MOST_BYTES = 256, 16 * 1048576 -- of buffers that no window shows

local Scan = {}
Scan.__index = Scan
local scans, uses = {}, 0 -- by buffer; and how often one was asked for

function Scan:is_of(pattern)
  return self.pattern == pattern and api.nvim_buf_is_loaded(self.buf) and self.tick == api.nvim_buf_get_changedtick(self.buf)
end

-- The next lines of the buffer, up to BYTES of them or one, with a newline behind each; nil behind the last.
local function next_lines(self)
  local last = api.nvim_buf_line_count(self.buf)
  if self.row >= last then
    return nil
  end
  local begin, rows = api.nvim_buf_get_offset(self.buf, self.row), math.min(self.rows, last - self.row)
  local bytes = api.nvim_buf_get_offset(self.buf, self.row + rows) - begin
  while rows > 1 and bytes > BYTES do
    rows = math.max(1, math.floor(rows * math.min(0.5, BYTES / bytes)))
    bytes = api.nvim_buf_get_offset(self.buf, self.row + rows) - begin
  end
  self.rows = bytes < BYTES / 2 and 2 * rows or rows
  local lines = api.nvim_buf_get_lines(self.buf, self.row, self.row + rows, false)
  self.row = self.row + rows
  lines[#lines + 1] = ''
  return table.concat(lines, '\n')
end

-- Searches on until a time: whether there is more to do. A long line is fed in parts, each up to the start of a character.
function Scan:step(deadline)
  if not self:is_of(self.pattern) then
    self.is_dropped = true
    return false
  end
  repeat
    if self.at > #self.piece then
      local piece = next_lines(self)
      if not piece then
        self.stream:finish()
        self.is_finished = true
        return false
      end
      self.piece, self.at = piece, 1
    end
    local stop = math.min(#self.piece, self.at + BYTES - 1)
    while stop < #self.piece and stop > self.at and self.piece:byte(stop + 1) >= 128 and self.piece:byte(stop + 1) < 192 do
      stop = stop - 1
    end
    self.stream:feed(stop - self.at + 1 == #self.piece and self.piece or self.piece:sub(self.at, stop))
    self.at = stop + 1
  until work.is_over(deadline)
  return true
end

-- How many bytes of the buffer have all their ranges.
function Scan:known()
  return self.is_finished and math.huge or self.stream.fed - UNSETTLED
end

-- How many bytes a scan may have: its ranges, and what its search has found out of characters.
function Scan:size()
  return 16 * self.stream.room + 32768 + 16 * #self.pattern.text + math.min(1600000, 1000 * self.stream.fed)
end

local function drop(scan)
  scan.is_dropped = true
  scan.stop()
  scan.stream:free()
  scans[scan.buf] = nil
end

-- Lets go of the scans of other patterns, and of buffers that are loaded no more; and of those that no window shows the least recently
-- used, as far as they are more than are kept.
function M.keep(pattern)
  local hidden, size = {}, 0
  for buf, scan in pairs(scans) do
    if scan.pattern ~= pattern or not api.nvim_buf_is_loaded(buf) then
      drop(scan)
    elseif #vim.fn.win_findbuf(buf) == 0 then
      hidden[#hidden + 1] = scan
    end
  end
  table.sort(hidden, function(a, b)
    return a.used > b.used
  end)
  for i, scan in ipairs(hidden) do
    size = size + scan:size()
    if i > MOST_SCANS or size > MOST_BYTES then
      drop(scan)
    end
  end
end

-- The scan of a buffer as it is now. `after(scan)` is called after each piece. One of a buffer that has changed begins when that is quiet.
function M.of(buf, pattern, after, failed)
  local before = scans[buf]
  uses = uses + 1
  if before and before:is_of(pattern) then
    before.used = uses
    return before
  end
  local tick = api.nvim_buf_get_changedtick(buf)
  local made = setmetatable({
    buf = buf, pattern = pattern, tick = tick, stream = library.stream(pattern), row = 0, rows = 64, piece = '', at = 1, used = uses,
  }, Scan)
  local changed = before and before.pattern == pattern
  if before then
    drop(before)
  end
  M.keep(pattern)
  made.stop = work.start(function(deadline)
    local more = made.is_finished ~= true and made:step(deadline)
    after(made)
    return more
  end, changed and QUIET or 0, failed)
  scans[buf] = made
  return made
end

-- Searches on now until a condition holds, or the whole buffer is searched; CTRL-C ends that. Whether it was reached.
function M.finish(scan, condition)
  local reached = function()
    return scan.is_finished or scan.is_dropped or condition()
  end
  if not scan.is_finished then
    scan:step(work.deadline()) -- also where the condition holds: most buffers are searched by this
  end
  local waited = vim.fn.wait(2147483647, function() -- vim.wait of 0.7 sees CTRL-C at its end alone
    if not reached() then
      scan:step(work.deadline())
    end
    return reached()
  end, 1)
  return waited == 0 and not scan.is_dropped
end

return M
