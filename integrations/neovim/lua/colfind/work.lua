-- Work in pieces of a few milliseconds. What the user types is served between two of them.
local uv = vim.loop
local M = {}

local PIECE = 4e6 -- nanoseconds
local PAUSE = 1 -- milliseconds

-- Whether a piece that ends at this time is over.
function M.is_over(deadline)
  return uv.hrtime() >= deadline
end

function M.deadline()
  return uv.hrtime() + PIECE
end

-- Calls `step(deadline)`, first after so many milliseconds, until it gives false. `failed` gets what an error says. Gives what stops it.
function M.start(step, delay, failed)
  local timer, again = uv.new_timer(), nil
  local function stop()
    if not timer:is_closing() then
      timer:stop()
      timer:close()
    end
  end
  again = vim.schedule_wrap(function()
    if timer:is_closing() then
      return
    end
    local good, more = pcall(step, M.deadline())
    if good and more then
      timer:start(PAUSE, 0, again)
      return
    end
    stop()
    if not good then
      failed(more)
    end
  end)
  timer:start(delay, 0, again)
  return stop
end

return M
