-- The proved library by LuaJIT's ffi: tables, patterns, and searches that go on behind bytes that are no text.
-- A call that can fail gives nil and a message.
local file = require('colfind.file')
local M = {}

local HEADER = [[
typedef struct { void *at; } colfind_handle;
typedef struct { uint64_t start, stop; } colfind_range;
typedef struct { uint32_t kind; uint64_t at; } colfind_status;
typedef struct { colfind_status status; uint32_t is_found; colfind_range range; } colfind_first;
typedef struct { colfind_status status; size_t count; } colfind_all;
colfind_status colfind_table(colfind_handle *out, const char *base, size_t n, const char *tailor, size_t m);
colfind_status colfind_pattern(colfind_handle *table, colfind_handle *out, const char *text, size_t n, uint8_t strength, uint8_t variable);
colfind_status colfind_search(colfind_handle *pattern, colfind_handle *out, uint8_t select);
colfind_status colfind_feed(colfind_handle *search, const char *piece, size_t n);
colfind_status colfind_finish(colfind_handle *search);
size_t colfind_pending(colfind_handle *search);
size_t colfind_take(colfind_handle *search, colfind_range *out, size_t room);
colfind_first colfind_first_in(colfind_handle *search, const char *text, size_t n, size_t from);
colfind_all colfind_all_in(colfind_handle *search, const char *text, size_t n, colfind_range *out, size_t room);
size_t colfind_message(colfind_status status, char *out, size_t room);
void colfind_free(colfind_handle *handle);
]]
local ILL_FORMED, LONG_RUN = 31, 32 -- the faults of a text behind which it can be searched on
local VARIABLE = { ['non-ignorable'] = 0, shifted = 1 }
local MOST_MB = 256 -- of a table's file
local MOST_TABLES = 4
local MOST_RANGES = 8388608 -- of a text
local CLDR = '/usr/share/unicode/cldr/common/uca/allkeys_CLDR.txt'

local has_ffi, ffi = pcall(require, 'ffi')
local libraries = {} -- what was loaded, by name
local tables = {} -- those that were asked for last, in front the last one: the names of their files, and a handle, or why there is none

local function library(name)
  if not has_ffi then
    return nil, 'this Neovim has no LuaJIT, whose ffi calls the library'
  end
  if not pcall(ffi.typeof, 'colfind_all') then
    ffi.cdef(HEADER)
  end
  if not libraries[name] then
    local loaded, found = pcall(ffi.load, name)
    if not loaded then
      return nil, tostring(found)
    end
    libraries[name] = found
  end
  return libraries[name]
end

local function words_of(C, status)
  local room = ffi.new('char[?]', 161)
  C.colfind_message(status, room, 161)
  return ffi.string(room)
end

-- A handle that is freed when nothing refers to it.
local function handle(C)
  return ffi.gc(ffi.new('colfind_handle'), C.colfind_free)
end

local function read_table(C, path, tailor)
  local base, why = file.read(file.from_home(path), path, MOST_MB)
  local more = ''
  if base and tailor ~= '' then
    more, why = file.read(file.from_home(tailor), tailor, MOST_MB)
  end
  if not base or not more then
    return nil, 'the table: ' .. why
  end
  local made = handle(C)
  local status = C.colfind_table(made, base, #base, more, #more)
  if status.kind ~= 0 then
    return nil, path .. ': ' .. words_of(C, status)
  end
  return made
end

-- A table is read once while it is among the last. One that could not be is read again where `again` says so.
local function table_of(C, settings, again)
  local key, found = settings.table .. '\0' .. settings.tailor, nil
  for i, kept in ipairs(tables) do
    found = kept.key == key and table.remove(tables, i) or found
  end
  if not found or (again and found.why) then
    found = { key = key }
    found.handle, found.why = read_table(C, settings.table, settings.tailor)
  end
  table.insert(tables, 1, found)
  tables[MOST_TABLES + 1] = nil
  return found.handle, found.why
end

-- The options of the user, with their defaults.
function M.settings()
  local g = vim.g
  local got = {
    library = tostring(g.colfind_library or 'libcolfind.so.1'),
    table = tostring(g.colfind_table or CLDR),
    tailor = tostring(g.colfind_tailor or ''),
    strength = tonumber(g.colfind_strength or 1),
    variable = tostring(g.colfind_variable or 'non-ignorable'),
  }
  if got.strength ~= 1 and got.strength ~= 2 and got.strength ~= 3 then
    return nil, ('g:colfind_strength is 1, 2 or 3, not %s'):format(tostring(g.colfind_strength))
  elseif not VARIABLE[got.variable] then
    return nil, ('g:colfind_variable is shifted or non-ignorable, not %s'):format(got.variable)
  end
  return got
end

-- Reads the table, if it was not read, so that the first pattern need not wait for it.
function M.prepare()
  local settings = M.settings()
  local C = settings and library(settings.library)
  if C then
    table_of(C, settings)
  end
end

-- Notes that a pattern is held, instead of another; each may be nil. One that nobody holds is freed, for Lua's collector, which would do it
-- at last, does not see how large it is.
function M.hold(pattern, instead_of)
  if pattern then
    pattern.holders = pattern.holders + 1
  end
  if instead_of then
    instead_of.holders = instead_of.holders - 1
    if instead_of.holders == 0 then
      instead_of.C.colfind_free(instead_of.search)
      instead_of.C.colfind_free(instead_of.handle)
    end
  end
  return pattern
end

local latest -- the pattern that was made last, which is held until the next one is

-- The pattern of a text under the options. That which is given, or was made last, is given back where it is the same.
function M.pattern(text, before, again)
  local settings, why = M.settings()
  if not settings then
    return nil, why
  end
  local key = table.concat({ settings.library, settings.table, settings.tailor, settings.strength, settings.variable, text }, '\0')
  for _, made in ipairs({ before or latest, latest }) do
    if made.key == key then
      return made
    end
  end
  local C, no_library = library(settings.library)
  if not C then
    return nil, no_library
  end
  local base, no_table = table_of(C, settings, again)
  if not base then
    return nil, no_table
  end
  local made, search = handle(C), handle(C)
  local status = C.colfind_pattern(base, made, text, #text, settings.strength, VARIABLE[settings.variable])
  if status.kind == 0 then
    status = C.colfind_search(made, search, 0)
  end
  if status.kind ~= 0 then
    return nil, words_of(C, status)
  end
  latest = M.hold({ key = key, text = text, C = C, handle = made, search = search, holders = 0 }, latest)
  return latest
end

-- The next byte at or after an offset with which a character may begin, else the end.
local function next_start(text, from)
  return (text:find('[^\128-\193\245-\255]', from + 1) or #text + 1) - 1
end

-- Where a text is searched on behind a fault at an offset, or nil where it can't be.
local function behind(status, text, at)
  if status.kind == ILL_FORMED then
    return next_start(text, math.max(0, at + 1))
  elseif status.kind == LONG_RUN then
    return math.max(0, at)
  end
end

local room, ranges = 0, nil

-- All ranges of a text, as a list of starts and ends. What is ill-formed parts it into texts by themselves.
function M.all_in(pattern, text)
  if room < #text + 1 then
    room = #text + 1
    ranges = ffi.new('colfind_range[?]', room) -- no two ranges begin at one offset
  end
  local found, from = {}, 0
  while from and from < #text do
    local all = pattern.C.colfind_all_in(pattern.search, ffi.cast('const char *', text) + from, #text - from, ranges, room)
    for i = 0, tonumber(all.count) - 1 do
      found[#found + 1] = from + tonumber(ranges[i].start)
      found[#found + 1] = from + tonumber(ranges[i].stop)
    end
    from = behind(all.status, text, from + tonumber(all.status.at))
  end
  return found
end

-- A text that comes in pieces. `ranges` has the `count` ranges that are known of its `fed` bytes, `fault` the words of its first fault and
-- `fault_at` where that stands; `failed` says that it can't go on, as behind MOST_RANGES. Who is done with one frees it.
local Stream = {}
Stream.__index = Stream

function M.stream(pattern)
  local made = { pattern = pattern, C = pattern.C, search = handle(pattern.C), count = 0, fed = 0, base = 0, room = 1024 }
  made.ranges = ffi.new('colfind_range[?]', made.room)
  local status = made.C.colfind_search(pattern.handle, made.search, 0)
  if status.kind ~= 0 then
    made.fault, made.fault_at, made.failed = words_of(made.C, status), 0, true
  end
  return setmetatable(made, Stream)
end

function Stream:take()
  local more = tonumber(self.C.colfind_pending(self.search))
  if more == 0 then
    return
  end
  if self.count + more > self.room then
    self.room = math.max(2 * self.room, self.count + more)
    local wider = ffi.new('colfind_range[?]', self.room)
    ffi.copy(wider, self.ranges, self.count * ffi.sizeof('colfind_range'))
    self.ranges = wider
  end
  self.C.colfind_take(self.search, self.ranges + self.count, more)
  if self.base > 0 then
    for i = self.count, self.count + more - 1 do
      self.ranges[i].start = self.ranges[i].start + self.base
      self.ranges[i].stop = self.ranges[i].stop + self.base
    end
  end
  self.count = self.count + more
  if self.count > MOST_RANGES then
    self.count, self.failed = MOST_RANGES, true
    self.fault, self.fault_at = MOST_RANGES .. ' matches, and those behind are left out', self:range(MOST_RANGES - 1)
  end
end

-- Notes a fault. What stands behind it is a text by itself, which begins at an offset of the piece; nil where there is none.
function Stream:begin_behind(status, piece)
  local at = self.base + tonumber(status.at)
  if not self.fault then
    self.fault, self.fault_at = words_of(self.C, ffi.new('colfind_status', status.kind, at)), at
  end
  local from = behind(status, piece, at - self.fed)
  if not from then
    self.failed = true
    return nil
  end
  self.C.colfind_first_in(self.search, '', 0, 0) -- then it is at the beginning of a text
  self.base = self.fed + from
  return from
end

-- Takes the next piece, which ends where a character does.
function Stream:feed(piece)
  local from = 0
  while from and from < #piece and not self.failed do
    local status = self.C.colfind_feed(self.search, ffi.cast('const char *', piece) + from, #piece - from)
    self:take()
    if status.kind == 0 then
      break
    end
    from = self:begin_behind(status, piece)
  end
  self.fed = self.fed + #piece
end

-- Ends the text.
function Stream:finish()
  if not self.failed then
    local status = self.C.colfind_finish(self.search)
    self:take()
    if status.kind ~= 0 then
      self:begin_behind(status, '')
    end
  end
end

function Stream:free()
  self.failed = true
  self.C.colfind_free(self.search)
end

-- How many ranges have an end, `start` or `stop`, before an offset. None lies within another, so both are in order.
local function before(stream, which, offset)
  local low, high = 0, stream.count
  while low < high do
    local middle = math.floor((low + high) / 2)
    if tonumber(stream.ranges[middle][which]) < offset then
      low = middle + 1
    else
      high = middle
    end
  end
  return low
end

-- How many ranges begin before an offset.
function Stream:begun_before(offset)
  return before(self, 'start', offset)
end

-- How many ranges end at or before an offset.
function Stream:ended_by(offset)
  return before(self, 'stop', offset + 1)
end

-- Where a range, counted from 0, begins and ends.
function Stream:range(i)
  return tonumber(self.ranges[i].start), tonumber(self.ranges[i].stop)
end

return M
