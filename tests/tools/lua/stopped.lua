-- A timer that is never called, since somebody stops it.
local uv = require('luv')
local said = require('said')
local reminder = uv.new_timer()

local function remind()
  print('never printed')
end

local answers
local function answered()
  answers()
  reminder:stop()
end

reminder:start(50, 0, remind)
answers = said.started('answered', 20, function(delay) uv.new_timer():start(delay, 0, answered) end)
uv.new_timer():start(100, 0, function() end)
uv.run()
said.all()
