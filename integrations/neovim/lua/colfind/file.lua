-- Files and folders by their names, which may be any: they are given to the system as they are. Neovim's `expand()` and `glob()` run what
-- stands in backticks, so nothing here is expanded, but for `~/` at the front of a name that a user has written.
local uv = vim.loop
local M = {}

local MB = 1048576
local PIECE = 262144 -- bytes that are read at once
local HOW = uv.constants.O_RDONLY + uv.constants.O_NONBLOCK

-- What the system says of a failure, as C writes it.
local function reason(failure)
  return ((failure:match('^%w+: ([^:]*)') or failure):gsub('^%l', string.upper))
end

-- The bytes of an open file, or nil and the failure; nil alone where they are more than so many.
local function bytes_of(file, left)
  local pieces = {}
  repeat
    local piece, failure = uv.fs_read(file, PIECE, -1)
    if not piece or #piece > left then
      return nil, failure
    end
    pieces[#pieces + 1], left = piece, left - #piece
  until piece == ''
  return table.concat(pieces)
end

-- The bytes of a file of at most so many MB, or nil and a message, in which its name is `shown`. Nothing but a file is opened; should another
-- thing have taken its place since it was looked at, nobody waits for that, and no more is read of it.
function M.read(name, shown, most)
  local about, failure = uv.fs_stat(name)
  local why, bytes = ('no file of at most %d MB'):format(most), nil
  if about and about.type == 'directory' then
    why = 'Is a directory'
  elseif about and about.type == 'file' and about.size <= most * MB then
    local file
    file, failure = uv.fs_open(name, HOW, 0)
    if file then
      bytes, failure = bytes_of(file, most * MB)
      uv.fs_close(file)
    end
  end
  return bytes, not bytes and ('%s: %s'):format(shown, failure and reason(failure) or why) or nil
end

-- What a name leads to: `file`, `directory` or another type, or nil.
function M.type(name)
  local about = uv.fs_stat(name)
  return about and about.type
end

-- What a folder lists, in order: names and their types. Where it is no folder, nothing; where it can't be read, also why.
function M.list(folder)
  local listing, failure, code = uv.fs_scandir(folder)
  if not listing then
    return {}, code ~= 'ENOENT' and code ~= 'ENOTDIR' and reason(failure) or nil
  end
  local entries = {}
  for name, type in uv.fs_scandir_next, listing do
    entries[#entries + 1] = { name = name, type = type ~= 'unknown' and type or (uv.fs_lstat(folder .. '/' .. name) or {}).type }
  end
  return entries
end

-- A name that a user has written, with the folder of the user for `~/` at its front.
function M.from_home(name)
  return name:find('^~/') and (uv.os_homedir() or '~') .. name:sub(2) or name
end

-- The whole name of a file, without links but for the last one: that which Neovim gives to its buffer.
function M.whole(name)
  local folder, last = name:match('^(.*/)([^/]*)$')
  if last == '' or last == '.' or last == '..' then
    return uv.fs_realpath(name) or name
  end
  local real = uv.fs_realpath(folder)
  return real and (real:gsub('/?$', '/', 1)) .. last or name
end

return M
