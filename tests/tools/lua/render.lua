-- A timer that waits while a page is put together piece by piece.
local uv = require('luv')
local said = require('said')
local beat, called = uv.new_timer(), nil

local function render()
  local done, page = said.took('render'), ''
  for at = 1, 9000 do page = page .. '<li>' .. at .. '</li>' end
  done()
end

local function remind()
  called()
  beat:close()
end

local timer = uv.new_timer()
timer:start(20, 0, render)
called = said.started('remind', 40, function(delay) beat:start(delay, 0, remind) end)
uv.run()
said.all()
