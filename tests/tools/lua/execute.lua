-- A timer that waits while another program is waited for.
local uv = require('luv')
local said = require('said')
local beat, called = uv.new_timer(), nil

local function deploy()
  local done = said.took('deploy')
  os.execute('sleep 0.12')
  done()
end

local function remind()
  called()
  beat:close()
end

local timer = uv.new_timer()
timer:start(20, 0, deploy)
called = said.started('remind', 40, function(delay) beat:start(delay, 0, remind) end)
uv.run()
said.all()
