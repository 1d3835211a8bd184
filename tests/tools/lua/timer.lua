-- A heartbeat, and a list that is sorted at once.
local uv = require('luv')
local said = require('said')
local beats, timer = nil, uv.new_timer()

local function sort()
  local done, rows = said.took('sort'), {}
  for at = 1, 200000 do rows[at] = at * 7919 % 200003 end
  table.sort(rows)
  done()
end

local function beat()
  if beats() == 8 then timer:close() end
end

beats = said.started('beat', 20, function(delay) timer:start(delay, delay, beat) end)
local once = uv.new_timer()
once:start(33, 0, sort)
uv.run()
said.all()
