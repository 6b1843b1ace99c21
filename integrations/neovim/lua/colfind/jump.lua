-- Goes to matches as an editor does: counts, wrapping at the ends, folds, the jump list.
local scans = require('colfind.scan')
local api = vim.api
local M = {}

local last = {} -- where the last jump has led, and which match that is

-- The row and column of an offset.
local function place_of(buf, offset)
  local low, high = 0, api.nvim_buf_line_count(buf) - 1
  while low < high do
    local middle = math.ceil((low + high) / 2)
    if api.nvim_buf_get_offset(buf, middle) <= offset then
      low = middle
    else
      high = middle - 1
    end
  end
  return low, offset - api.nvim_buf_get_offset(buf, low)
end
M.place_of = place_of

-- The row and column of the cursor. While commands of Neovim's words are run it stands before the first line.
local function cursor()
  local place = api.nvim_win_get_cursor(0)
  if place[1] == 0 then
    return 0, -1
  end
  return place[1] - 1, place[2]
end

-- How many matches begin before the cursor, and how many before or at it. The one to which the last jump has led is at it, also where the
-- cursor can't stand on it, as on a newline.
local function matches_around(scan)
  local row, col = cursor()
  if last.scan == scan and last.row == row and last.col == col and last.win == api.nvim_get_current_win() then
    return last.index, last.index + 1
  end
  local at = api.nvim_buf_get_offset(scan.buf, row) + col
  return scan.stream:begun_before(at), scan.stream:begun_before(at + 1)
end

-- Whether so much of the buffer is known that a jump is, unless it goes over an end.
local function is_known(scan, direction, count)
  local row, col = cursor()
  local _, upto = matches_around(scan)
  if direction > 0 then
    return upto + count <= scan.stream.count
  end
  return scan:known() > api.nvim_buf_get_offset(scan.buf, row) + col and matches_around(scan) >= count
end

-- The match, counted from 0, to which a jump leads, and at which end it wraps.
local function target(scan, direction, count)
  local before, upto = matches_around(scan)
  local index = direction > 0 and upto + count - 1 or before - count
  if index < 0 or index >= scan.stream.count then
    return index % scan.stream.count, index < 0 and 'TOP' or 'BOTTOM'
  end
  return index
end

-- Leads the cursor of a window to a match, and no further than nearby where `is_preview`.
function M.go(scan, index, is_preview)
  local start = scan.stream:range(index)
  local row, col = place_of(scan.buf, start)
  if not is_preview then
    vim.cmd("normal! m'")
  end
  api.nvim_win_set_cursor(0, { row + 1, col })
  if not is_preview then
    if vim.o.foldopen:find('search') and vim.fn.mode(1):sub(1, 2) ~= 'no' then
      vim.cmd('normal! zv')
    end
    row, col = cursor()
    last = { scan = scan, index = index, row = row, col = col, win = api.nvim_get_current_win() }
  end
end

-- The match behind the cursor, or the first one, as far as it is known.
function M.next_known(scan)
  local _, upto = matches_around(scan)
  if upto < scan.stream.count then
    return upto
  end
  return scan.is_finished and scan.stream.count > 0 and vim.o.wrapscan and 0 or nil
end

-- Jumps `count` matches forward (1) or backward (-1): what there is to say, and its highlighting; nothing where CTRL-C has ended it.
function M.jump(scan, direction, count, text)
  if not scans.finish(scan, function() return is_known(scan, direction, count) end) then
    return nil
  end
  if scan.stream.count == 0 then
    return 'E486: Pattern not found: ' .. text, 'ErrorMsg'
  end
  local index, wrapped_at = target(scan, direction, count)
  if wrapped_at and not vim.o.wrapscan then
    local number = wrapped_at == 'TOP' and 384 or 385
    return ('E%d: search hit %s without match for: %s'):format(number, wrapped_at, text), 'ErrorMsg'
  end
  M.go(scan, index)
  local many = (scan.is_finished and '' or '>') .. scan.stream.count
  local said = ('[%d/%s]'):format(index + 1, many)
  if wrapped_at then
    local other = wrapped_at == 'TOP' and 'BOTTOM' or 'TOP'
    return ('search hit %s, continuing at %s  %s'):format(wrapped_at, other, said), 'WarningMsg'
  end
  return ('%s  %s'):format(text, said), 'Normal'
end

return M
