-- A server that renders a long page as it is asked, and a timer meanwhile.
local uv = require('luv')
local said = require('said')
local server, client, timer = uv.new_tcp(), uv.new_tcp(), uv.new_timer()
local timed

local function answer(socket)
  local page = {}
  for at = 1, 200000 do page[at] = ('<li>%.6f</li>'):format(math.sqrt(at)) end
  socket:write(table.concat(page, '\n', 1, 100))
end

local function connected()
  local socket = uv.new_tcp()
  server:accept(socket)
  local function on_request(fault, text)
    local done = said.took('on_request')
    if text then answer(socket) else socket:close() end
    done()
  end
  socket:read_start(on_request)
end

local function timeout()
  timed()
  server:close()
end

server:bind('127.0.0.1', 0)
server:listen(8, connected)
client:connect('127.0.0.1', server:getsockname().port, function()
  timed = said.started('timeout', 10, function(delay) timer:start(delay, 0, timeout) end)
  client:write('page')
  client:read_start(function() client:close() end)
end)
uv.run()
said.all()
