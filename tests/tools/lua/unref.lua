-- A timer that nothing waits for.
local uv = require('luv')
local said = require('said')
local clean = uv.new_timer()

local function cleanup()
  print('never printed')
end

local worked
local function work() worked() end

clean:start(300, 0, cleanup)
clean:unref()
worked = said.started('work', 20, function(delay) uv.new_timer():start(delay, 0, work) end)
uv.run()
said.all()
