-- Marks what is seen, line by line as it is drawn. Where the search of the whole buffer has not come yet, the lines around are searched by
-- themselves, from the newline before them.
local library = require('colfind.library')
local scans = require('colfind.scan')
local api = vim.api
local M = {}

local NAMESPACE = api.nvim_create_namespace('colfind')
local TOUCHED = api.nvim_create_namespace('colfind_touched')
local ABOVE, BELOW = 1, 64 -- lines that are searched with one that is drawn
local MOST = 65536 -- bytes of these
local BYTES_OF_CELL = 8 -- of a line longer than so many bytes a cell of the screen, a part alone is marked

local pattern -- what is marked, or nil
local on_progress, tell = nil, nil
local views = {} -- by buffer: the columns of rows that were searched by themselves
local cursors = {} -- by window, where its cursor is while it is drawn

-- The text from the newline before a row on, and the offset of the row in it; as many lines as MOST lets in.
local function text_around(buf, row)
  local first, last = math.max(0, row - 1 - ABOVE), math.min(api.nvim_buf_line_count(buf), row + BELOW)
  local offset = function(of)
    return api.nvim_buf_get_offset(buf, of)
  end
  while last > row + 1 and offset(last) - offset(row) > MOST do
    last = row + math.floor((last - row) / 2)
  end
  while first < row and offset(row) - offset(first) > MOST do
    first = first + 1
  end
  local lines = api.nvim_buf_get_lines(buf, first, last, false)
  lines[#lines + 1] = ''
  local from = first < row and #lines[1] or 0 -- the newline behind the first line begins the text
  return table.concat(lines, '\n'):sub(from + 1, from + offset(last) - offset(first)), offset(row) - offset(first) - from, last
end

-- Puts a span, as columns, behind others of its row; those that touch become one.
local function add_span(spans, from, to)
  if #spans > 0 and from <= spans[#spans] then
    spans[#spans] = math.max(to, spans[#spans])
  elseif from < to then
    spans[#spans + 1] = from
    spans[#spans + 1] = to
  end
end

-- The columns of the matches in a row and those below, which are searched by themselves. They are kept in `rows`.
local function search_rows(buf, rows, row)
  local text, begin, last = text_around(buf, row)
  local found, i = library.all_in(pattern, text), 1
  for at = row, last - 1 do
    local stop = begin + api.nvim_buf_get_offset(buf, at + 1) - api.nvim_buf_get_offset(buf, at) - 1
    local spans = {}
    while i < #found and found[i + 1] <= begin do
      i = i + 2
    end
    local j = i
    while j < #found and found[j] < stop do
      add_span(spans, math.max(0, found[j] - begin), math.min(stop, found[j + 1]) - begin)
      j = j + 2
    end
    rows[at] = rows[at] or spans
    begin = stop + 1
  end
end

-- The columns between two of the matches in a row, by the search of the whole buffer.
local function scanned_spans(stream, begin, from, to, spans)
  local i = stream:ended_by(begin + from)
  while i < stream.count do
    local start, stop = stream:range(i)
    if start >= begin + to then
      break
    end
    add_span(spans, math.max(from, start - begin), math.min(to, stop - begin))
    i = i + 1
  end
  return spans
end

-- The columns of the matches in a row, from and to in turn; of a long line those at its front and around the cursor.
local function spans_of(win, buf, row)
  local scan = scans.of(buf, pattern, on_progress, M.fail)
  local begin, below = api.nvim_buf_get_offset(buf, row), api.nvim_buf_get_offset(buf, row + 1)
  local length = below - begin - 1
  if scan:known() < below then
    local view = views[buf]
    if not view or view.pattern ~= pattern or view.tick ~= scan.tick then
      view = { pattern = pattern, tick = scan.tick, rows = {} }
      views[buf] = view
    end
    if not view.rows[row] and length <= MOST then
      search_rows(buf, view.rows, row)
    end
    return view.rows[row] or {} -- the search of the whole buffer comes to a long line soon
  end
  local most = BYTES_OF_CELL * vim.o.columns * vim.o.lines
  if length <= 2 * most then
    return scanned_spans(scan.stream, begin, 0, length, {})
  end
  local spans = scanned_spans(scan.stream, begin, 0, most, {})
  local middle = cursors[win][2]
  return scanned_spans(scan.stream, begin, math.max(most, middle - most), math.min(length, middle + most), spans)
end

local function draw_window(_, win)
  cursors[win] = api.nvim_win_get_cursor(win)
  return pattern ~= nil
end

local function draw_line(_, win, buf, row)
  if not pattern then
    return
  end
  local good, spans = pcall(spans_of, win, buf, row)
  if not good then
    return M.fail(spans)
  end
  for i = 1, #spans, 2 do
    pcall(api.nvim_buf_set_extmark, buf, NAMESPACE, row, spans[i], {
      end_row = row, end_col = spans[i + 1], hl_group = 'Colfind', ephemeral = true,
    })
  end
end

-- Has the lines that windows show drawn again: the visible lines of each are touched by a mark, which is taken away at once.
function M.redraw()
  for _, win in ipairs(api.nvim_tabpage_list_wins(0)) do
    local buf = api.nvim_win_get_buf(win)
    local last = api.nvim_buf_line_count(buf) - 1 -- -1 where it is not loaded yet
    if last >= 0 then
      api.nvim_buf_set_extmark(buf, TOUCHED, 0, 0, { end_row = last, end_col = 0, hl_group = 'Colfind' })
      api.nvim_buf_clear_namespace(buf, TOUCHED, 0, -1)
    end
  end
end

-- Marks the matches of a pattern, or of none.
function M.show(shown)
  if shown ~= pattern then
    pattern = library.hold(shown, pattern)
    views = {}
    scans.keep(pattern)
    M.redraw()
  end
end

-- The scan of a buffer for the pattern that is marked.
function M.scan(buf)
  return scans.of(buf, pattern, on_progress, M.fail)
end

-- What fails, though it should not, is told once, and nothing is marked from then on.
function M.fail(why)
  pattern = library.hold(nil, pattern)
  vim.schedule(function()
    tell(tostring(why))
  end)
end

-- `progress(scan)` is called after each piece of the search of a buffer, and `failed(why)` where this has failed.
function M.start(progress, failed)
  on_progress, tell = progress, failed
  api.nvim_set_decoration_provider(NAMESPACE, { on_win = draw_window, on_line = draw_line })
end

return M
