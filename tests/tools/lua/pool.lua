-- A file that is asked for while the pool is full.
local uv = require('luv')
local said = require('said')

local function count(name)
  local sum = 0
  for at = 1, 5e7 do sum = sum + at % 7 end
  return name
end

local function counted() end
local work = uv.new_work(count, counted)

local function fill()
  for at = 1, 8 do work:queue('job' .. at) end
end

local function read_settings()
  uv.fs_stat('pool.lua', said.took('settings'))
end

fill()
uv.new_timer():start(10, 0, read_settings)
uv.run()
said.all()
