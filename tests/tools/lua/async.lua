-- A thread that says that it is through, while the loop has no time for it.
local uv = require('luv')
local said = require('said')
local async

local function render()
  local done, page = said.took('render'), {}
  for at = 1, 150000 do page[at] = ('<li>%.6f</li>'):format(math.sqrt(at)) end
  done()
end

local function through()
  async:close()
end

async = uv.new_async(through)
local timer = uv.new_timer()
timer:start(20, 0, render)
local thread = uv.new_thread(function(handle)
  local luv = require('luv')
  luv.sleep(30)
  luv.async_send(handle)
end, async)
uv.run()
thread:join()
said.all()
