-- The files that the words of :ColfindGrep name. A word is a name, or a pattern that is compared with what folders list; Neovim expands
-- neither. This runs in a coroutine, which yields behind each folder.
local file = require('colfind.file')
local words = require('colfind.words')
local M = {}

-- The regular expression of a pattern of names; nil where it is none.
local function regex_of(pattern)
  local good, regex = pcall(function()
    return vim.regex('\\C' .. vim.fn.glob2regpat((pattern:gsub('\\\\', '[\\\\]'))))
  end)
  return good and regex or nil
end

-- The parts of a pattern between slashes; nil where one of them is no pattern. `**` stands for any folders, or none.
local function parts_of(pattern)
  local parts = {}
  for text in pattern:gmatch('[^/]+') do
    local part = { name = words.name(text), is_deep = text == '**', is_pattern = words.is_pattern(text) }
    part.regex = part.is_pattern and regex_of(text)
    if part.is_pattern and not part.regex then
      return nil
    end
    parts[#parts + 1] = part
  end
  if parts[#parts].is_deep then
    parts[#parts + 1] = { name = '*', is_pattern = true, regex = regex_of('*') }
  end
  return parts
end

-- Whether 'wildignore' has a name, whose end is `last`. As in Vim a pattern with a slash is for the name, from here or as a whole.
local function ignoring(root)
  local patterns = vim.tbl_map(function(pattern)
    return { regex = regex_of(pattern), has_slash = pattern:find('/') }
  end, vim.opt.wildignore:get())
  return function(name, last)
    for _, pattern in ipairs(patterns) do
      for _, of in ipairs(pattern.regex and (pattern.has_slash and { name, root .. name } or { last }) or {}) do
        if pattern.regex:match_str(of) then
          return true
        end
      end
    end
    return false
  end
end

-- What a part of a pattern has in a folder, names and types. Names with a dot in front only if it has one.
local function entries_of(walk, folder, part)
  if not part.is_pattern then
    return { { name = part.name, type = file.type(walk.root .. folder .. part.name) } }
  end
  local entries, why = file.list(walk.root .. folder)
  if why and not walk.told[folder] then
    walk.told[folder] = true
    walk.visit(nil, (folder == '' and './' or folder) .. ': ' .. why)
  end
  return vim.tbl_filter(function(entry)
    local is_shown = part.name:find('^%.') or not entry.name:find('^%.')
    return is_shown and part.regex:match_str(entry.name) and not walk.ignores(folder .. entry.name, entry.name)
  end, entries)
end

-- Goes one part further from a folder: the folders to go on from. What the last part has is visited.
local function further(walk, at)
  local part, is_last = walk.parts[at.part], at.part == #walk.parts
  local folders = part.is_deep and { { folder = at.folder, part = at.part + 1 } } or {}
  for _, entry in ipairs(entries_of(walk, at.folder, part)) do
    local name, type = at.folder .. entry.name, entry.type
    if type == 'link' and not part.is_deep then
      type = file.type(walk.root .. name)
    end
    if is_last and type == 'file' then
      walk.visit(name)
    elseif not is_last and type == 'directory' then
      folders[#folders + 1] = { folder = name .. '/', part = part.is_deep and at.part or at.part + 1 }
    end
  end
  return folders
end

-- Visits the files that a pattern has, those of a folder before those of the folders in it.
local function go(walk)
  local waiting = { { folder = '', part = 1 } }
  while #waiting > 0 do
    local folders = further(walk, table.remove(waiting))
    for i = #folders, 1, -1 do
      waiting[#waiting + 1] = folders[i]
    end
    coroutine.yield()
  end
end

-- Calls `visit(name, whole)` for each file that a word names from a folder on, and `visit(nil, nil, why)` for what can't be read. A pattern
-- that has no file is a name.
function M.each(word, base, visit)
  local front = word:match('^~?/') or ''
  local root, rest, has = front == '' and base:gsub('/?$', '/', 1) or file.from_home(front), word:sub(#front + 1), false
  local function found(name, why)
    has = true
    visit(name and front .. name, name and file.whole(root .. name), why and front .. why)
  end
  local parts = words.is_pattern(rest) and parts_of(rest)
  if parts then
    go({ root = root, parts = parts, visit = found, ignores = ignoring(root), told = {} })
  end
  if not has then
    found(words.name(rest))
  end
end

return M
