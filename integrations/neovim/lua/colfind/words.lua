-- The words of :ColfindGrep, as they are typed: a pattern, and names between blanks. Behind a backslash a sign of a name is itself.
local file = require('colfind.file')
local M = {}

-- The pattern and the rest of an argument, as :vimgrep has them: `/PATTERN/` with any sign that is none of a name, or one word.
function M.pattern(argument)
  local sign = argument:match('^[^%w_%s\128-\255\\]')
  if sign then
    local pattern, rest = argument:match(('^%%%s(..-)%%%s[gj]*%%f[ \t%%z](.*)$'):format(sign, sign))
    if pattern then
      return pattern, rest
    end
  end
  return argument:match('^([^ \t]+)(.*)$')
end

-- The words of a text, with a backslash before a sign that would mean more than itself, and before no other.
function M.split(text)
  local words, at = {}, text:find('[^ \t]')
  while at do
    local stop = at
    while stop <= #text and not text:find('^[ \t]', stop) do
      stop = stop + (text:find('^\\', stop) and 2 or 1)
    end
    words[#words + 1] = text:sub(at, stop - 1):gsub('\\(.)', function(sign)
      return not sign:find('[*?%[%]{},\\~%%#]') and sign or nil
    end)
    at = text:find('[^ \t]', stop)
  end
  return words
end

-- The name that a word is.
function M.name(word)
  return (word:gsub('\\(.)', '%1'))
end

-- Whether a word is a pattern of names.
function M.is_pattern(word)
  return word:gsub('\\.', ''):find('[*?%[{]') ~= nil
end

-- The word that is a name.
local function word_of(name)
  return (name:gsub('[ \t\\*?%[{]', '\\%0'):gsub('^[~%%#]', '\\%0'))
end

-- What a word that is typed up to the cursor may become, as Neovim asks for it. A name with control characters is left out.
function M.complete(lead, line, cursor)
  if not line:sub(1, cursor - #lead):find('Colfind%a*[ \t]+[^ \t]') then
    return {} -- it is the pattern
  end
  local word = M.split(lead)[1] or ''
  local home = word:match('^~/') or ''
  local name, found = M.name(word:sub(#home + 1)), {}
  local folder = name:match('^.*/') or ''
  local front, place = name:sub(#folder + 1), file.from_home(home) .. folder
  for _, entry in ipairs(file.list(place == '' and '.' or place)) do
    local is_hidden = entry.name:find('^%.') and not front:find('^%.')
    if vim.startswith(entry.name, front) and not is_hidden and not entry.name:find('%c') then
      local is_folder = file.type(place .. entry.name) == 'directory'
      found[#found + 1] = home .. word_of(folder .. entry.name) .. (is_folder and '/' or '')
    end
  end
  return found
end

return M
