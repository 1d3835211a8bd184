-- An idle handle that does a part of its work in each round, and a timer meanwhile.
local uv = require('luv')
local said = require('said')
local idle, parts = uv.new_idle(), 4

local function index()
  local done, words = said.took('index'), {}
  for at = 1, 200000 do words[at] = ('%d:%s'):format(at, ('x'):rep(at % 50)) end
  done()
  parts = parts - 1
  if parts == 0 then idle:stop() end
end

local saved
local function save() saved() end

saved = said.started('save', 15, function(delay) uv.new_timer():start(delay, 0, save) end)
idle:start(index)
uv.run()
said.all()
