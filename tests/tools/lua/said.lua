-- What a program of this folder says of itself, by its own clock, as it ends: how long something took (`took NAME MS`), and how late the call of a
-- timer was (`late NAME CALL MS MS`), between the least and the most that it may have been.
local uv = require('luv')
local said, rows = {}, {}

local function now()
  return uv.hrtime() / 1e6
end

function said.took(name)
  local begin = now()
  return function()
    rows[#rows + 1] = ('took %s %.1f'):format(name, now() - begin)
  end
end

-- A timer is started by `start`, by the time as it is now; `called` is told of each call. libuv counts a repeat from its last call.
function said.started(name, delay, start)
  local least, call = now(), 0
  uv.update_time()
  start(delay)
  local most = now()
  return function()
    local time = now()
    call = call + 1
    rows[#rows + 1] = ('late %s %d %.1f %.1f'):format(name, call, time - most - delay, time - least - delay)
    least, most = time, time
    return call
  end
end

function said.all()
  print(table.concat(rows, '\n'))
end

return said
