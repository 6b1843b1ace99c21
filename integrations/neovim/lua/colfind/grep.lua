-- Matches in buffers and files as a quickfix list, which grows while they are searched in pieces.
local file = require('colfind.file')
local library = require('colfind.library')
local names = require('colfind.names')
local say = require('colfind.say')
local words = require('colfind.words')
local work = require('colfind.work')
local api = vim.api
local M = {}

local BYTES = 65536 -- of a piece of a text
local ITEMS = 1000 -- that are added at once
local LINE = 1000 -- bytes of a line that are shown
local MOST = 100000 -- matches of a list
local MOST_MB = 1024 -- of a file

local stop_before = function() end

-- The loaded buffers by the whole names of their files.
local function buffers()
  local named = {}
  for _, buf in ipairs(api.nvim_list_bufs()) do
    if api.nvim_buf_is_loaded(buf) then
      named[api.nvim_buf_get_name(buf)] = buf
    end
  end
  return named
end

-- What words mean: buffers, names, and words for these. As in Vim `%` is this buffer, `#` the one before, `##` the list of arguments.
local function meanings(of)
  local found = {}
  for _, word in ipairs(of) do
    local buf = (word == '%' or word == '#') and vim.fn.bufnr(word) or -1
    if buf > 0 then
      found[#found + 1] = api.nvim_buf_is_loaded(buf) and { buf = buf } or { name = api.nvim_buf_get_name(buf) }
    elseif word == '##' then
      for _, name in ipairs(vim.fn.argv()) do
        found[#found + 1] = { name = name }
      end
    else
      found[#found + 1] = { word = word }
    end
  end
  return found
end

-- Calls `visit(source)` for each buffer and file that is meant, once, and `visit(nil, why)` for what can't be read.
local function each_source(meant, base, visit)
  local named, has = buffers(), {}
  local function once(name, whole, why)
    local buf = named[whole]
    if why then
      visit(nil, why)
    elseif not has[buf or whole] then
      has[buf or whole] = true
      visit({ name = name, whole = whole, buf = buf })
    end
  end
  for _, of in ipairs(meant) do
    if of.word then
      names.each(of.word, base, once)
    elseif of.name then
      once(of.name, file.whole(of.name:find('^/') and of.name or base .. '/' .. of.name))
    elseif not has[of.buf] then
      has[of.buf] = true
      visit({ buf = of.buf })
    end
  end
end

local function shown_name(source)
  local name = source.name or api.nvim_buf_is_valid(source.buf) and api.nvim_buf_get_name(source.buf) or ''
  return name ~= '' and name or '[No Name]'
end

local function text_of(source)
  if source.buf and api.nvim_buf_is_loaded(source.buf) then
    return table.concat(api.nvim_buf_get_lines(source.buf, 0, -1, false), '\n') .. '\n'
  elseif not source.whole then
    return nil, 'the buffer is loaded no more'
  end
  return file.read(source.whole, source.name, MOST_MB)
end

-- The part of a text from a byte on that is searched next, which ends where a character does, and the byte behind it.
local function next_piece(text, at)
  local stop = math.min(#text, at + BYTES - 1)
  while stop < #text and stop > at and text:byte(stop + 1) >= 128 and text:byte(stop + 1) < 192 do
    stop = stop - 1
  end
  return text:sub(at, stop), stop + 1
end

-- A place in a text: the number of its line, where that begins, and the newline behind it, counted from 1.
local function first_place(text)
  return { line = 1, begin = 0, newline = text:find('\n', 1, true) or #text + 1 }
end

-- Moves a place to an offset that is not before it.
local function advance(text, place, offset)
  while place.newline <= offset and place.newline <= #text do
    place.line, place.begin = place.line + 1, place.newline
    place.newline = text:find('\n', place.begin + 1, true) or #text + 1
  end
end

-- The line at a place, or as much of it as is shown, up to the end of a character.
local function shown_line(text, place)
  if place.shown_of ~= place.line then
    local line = text:sub(place.begin + 1, math.min(place.newline - 1, place.begin + LINE))
    if place.begin + #line < place.newline - 1 then
      line = line:gsub('[\192-\255]?[\128-\191]*$', '')
    end
    place.shown, place.shown_of = say.clean((line:gsub('\r$', ''))), place.line
  end
  return place.shown
end

-- The items of the ranges from one to before another, with the places of their ends.
local function items_of(source, text, stream, first, behind, from, to)
  local items = {}
  for i = first, behind - 1 do
    local start, stop = stream:range(i)
    advance(text, from, start)
    advance(text, to, stop)
    items[#items + 1] = {
      filename = not source.buf and source.whole or nil, bufnr = source.buf, text = shown_line(text, from),
      lnum = from.line, col = start - from.begin + 1, end_lnum = to.line, end_col = stop - to.begin + 1,
    }
  end
  return items
end

-- Searches a text for so many matches: how many it has, or one more, and its fault. At each `coroutine.yield` the user may type.
local function search_source(pattern, source, list, most)
  local text, why = text_of(source)
  if not text then
    return 0, why
  end
  local stream, at = library.stream(pattern), 1
  while at <= #text and stream.count <= most do
    local piece, behind = next_piece(text, at)
    stream:feed(piece)
    at = behind
    coroutine.yield()
  end
  stream:finish()
  local from, to, count = first_place(text), first_place(text), math.min(stream.count, most)
  for first = 0, count - 1, ITEMS do
    local items = items_of(source, text, stream, first, math.min(count, first + ITEMS), from, to)
    vim.fn.setqflist({}, 'a', { id = list, items = items })
    coroutine.yield()
  end
  stream:free()
  return math.min(stream.count, most + 1), stream.fault and ('%s: %s'):format(shown_name(source), stream.fault)
end

local function tell(pattern, got)
  vim.cmd('silent doautocmd <nomodeline> QuickFixCmdPost ColfindGrep')
  local many = ('%d matches%s'):format(got.count, got.is_full and ', and more that are left out' or '')
  if got.faults > 0 then
    say.fault(('%s, %s: %s'):format(many, got.faults == 1 and '1 fault' or got.faults .. ' faults', got.first_fault))
  elseif got.count == 0 then
    say.say('E480: No match: ' .. pattern.text, 'ErrorMsg')
  else
    say.say(('%s in %d of %d files'):format(many, got.files, got.of_files), got.is_full and 'WarningMsg' or 'Normal')
  end
end

-- Searches all that is meant, and tells how it went. It yields true where the list is full.
local function search_all(pattern, meant, base, list)
  local got = { count = 0, files = 0, of_files = 0, faults = 0 }
  each_source(meant, base, function(source, why)
    if source then
      local found
      found, why = search_source(pattern, source, list, MOST - got.count)
      got.of_files, got.files = got.of_files + 1, got.files + (found > 0 and 1 or 0)
      got.is_full, got.count = got.count + found > MOST, math.min(MOST, got.count + found)
    end
    if why then
      got.faults, got.first_fault = got.faults + 1, got.first_fault or why
    end
    if got.is_full then
      tell(pattern, got)
      coroutine.yield(true)
    end
  end)
  tell(pattern, got)
end

-- Begins to search, and makes a new list. Without files it is the buffer of the window that is searched.
function M.grep(argument)
  local text, rest = words.pattern(argument)
  local pattern, why = library.pattern(text, nil, true)
  if not pattern then
    return say.fault(why)
  end
  local named = words.split(rest)
  local meant = meanings(#named > 0 and named or { '%' })
  vim.fn.setqflist({}, ' ', { title = say.clean(':ColfindGrep ' .. argument), items = {} })
  local list = vim.fn.getqflist({ id = 0 }).id
  local base, run = vim.loop.cwd(), coroutine.create(search_all)
  stop_before()
  local stop = work.start(function(deadline)
    repeat
      local good, is_over = coroutine.resume(run, pattern, meant, base, list)
      assert(good, is_over)
    until is_over or coroutine.status(run) == 'dead' or work.is_over(deadline)
    return not is_over and coroutine.status(run) ~= 'dead'
  end, 0, say.fault)
  library.hold(pattern)
  stop_before = function()
    stop()
    library.hold(nil, pattern)
  end
end

return M
