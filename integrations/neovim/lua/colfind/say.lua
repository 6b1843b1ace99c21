-- What the user is told: one line, cut so that it never asks for ENTER. `v:warningmsg` has all of a fault.
local fn = vim.fn
local M = {}

-- Patterns: C0 and DEL, C1, U+2028 and U+2029, and the controls of Unicode's bidirectional algorithm, in UTF-8.
local ACTING = {
  '[%z\1-\8\10-\31\127]', '\194[\128-\159]', '\226\128[\168\169]',
  '\216\156', '\226\128[\142\143\170-\174]', '\226\129[\166-\169]',
}

-- As much of a text from an end as has so many cells.
local function part(text, cells, is_end)
  local length = fn.strchars(text)
  for taken = math.min(length, cells), 1, -1 do
    local found = fn.strcharpart(text, is_end and length - taken or 0, taken)
    if fn.strdisplaywidth(found) <= cells then
      return found
    end
  end
  return ''
end

-- The text, or both its ends where it has no room in the last line of the screen.
local function cut(text)
  local room = math.max(20, vim.v.echospace)
  if fn.strdisplaywidth(text) <= room then
    return text
  end
  local half = math.floor((room - 3) / 2)
  return part(text, half, false) .. '...' .. part(text, room - 3 - half, true)
end

-- A text with `?` for what acts on a screen: control characters but tabs, ends of lines, and signs that turn the direction of a text.
function M.clean(text)
  for _, signs in ipairs(ACTING) do
    text = text:gsub(signs, '?')
  end
  return text
end

function M.say(text, highlight)
  vim.api.nvim_echo({ { cut((M.clean(text):gsub('\t', '?'))), highlight } }, true, {})
end

function M.fault(text)
  vim.v.warningmsg = M.clean('colfind: ' .. text)
  M.say(vim.v.warningmsg, 'WarningMsg')
end

return M
